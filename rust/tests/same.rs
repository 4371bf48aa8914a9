//! Every call of the archive next to the second program, on calls made from seeds: the number returned, the answer and
//! every lent number are equal, and what lies around a lent buffer is as it was.
//! Nothing else compares the declarations in src/raw.rs with the Rattle source.

use second::make::requests::{request, round};
use second::request::{Reply, Request};
use whitebeamish::raw::{self, Parameters};

const GUARD: usize = 16;

/// The numbers with guards before and behind them.
fn guarded<T: Copy>(numbers: &[T], guard: T) -> Vec<T> {
    [&[guard; GUARD], numbers, &[guard; GUARD]].concat()
}

fn lend<T>(guarded: &mut [T]) -> &mut [T] {
    let end = guarded.len() - GUARD;
    &mut guarded[GUARD..end]
}

/// What is between the guards, which must be whole.
fn whole<T: Copy + PartialEq>(guarded: &[T], guard: T) -> Vec<T> {
    let (before, rest) = guarded.split_at(GUARD);
    let (numbers, behind) = rest.split_at(rest.len() - GUARD);
    assert!(before.iter().chain(behind).all(|&number| number == guard), "a guard is broken");
    numbers.to_vec()
}

fn parameters(numbers: &[usize]) -> Parameters {
    Parameters { p: numbers[0], n: numbers[1], k: numbers[2], s: numbers[3], tau: numbers[4] }
}

fn call(request: &Request, lent: Vec<&mut [u16]>, answer: &mut [usize]) -> u16 {
    let v: Vec<usize> = request.numbers.iter().map(|&number| number as usize).collect();
    let mut lent = lent.into_iter();
    let mut lent = || lent.next().expect("as many as the call takes");
    let run = |place: usize| &request.runs[place][..];
    match (request.form.name, &request.symbols[..]) {
        ("is_modulus", _) => raw::is_modulus(v[0]).into(),
        ("sum", &[a, b]) => raw::sum(v[0], a, b, answer),
        ("difference", &[a, b]) => raw::difference(v[0], a, b, answer),
        ("product", &[a, b]) => raw::product(v[0], a, b, answer),
        ("inverse", &[a]) => raw::inverse(v[0], a, answer),
        ("setting", _) => raw::setting(parameters(&v), answer),
        ("encode", _) => raw::encode(v[0], v[1], v[2], run(0), run(1), lent()),
        ("check", _) => raw::check(parameters(&v), run(0), run(1), run(2), answer),
        ("find", _) => raw::find(parameters(&v), run(0), run(1), lent(), lent()),
        ("list", _) => raw::list(parameters(&v), run(0), run(1), run(2), lent(), lent(), answer),
        ("read", _) => raw::read(parameters(&v), run(0), run(1), lent(), lent(), lent(), answer),
        (name, _) => panic!("no call {name}"),
    }
}

fn reply(request: &Request) -> Reply {
    let given = request.form.runs - request.form.lent;
    let mut lent: Vec<Vec<u16>> = request.runs[given..].iter().map(|run| guarded(run, 0xA5A5)).collect();
    let answer: Vec<usize> = request.answer.iter().map(|&number| number as usize).collect();
    let mut answer = guarded(&answer, usize::MAX / 3);
    let returned = call(request, lent.iter_mut().map(|run| lend(run)).collect(), lend(&mut answer));
    Reply {
        returned: returned.into(),
        answer: whole(&answer, usize::MAX / 3).into_iter().map(|number| number as u64).collect(),
        lent: lent.iter().map(|run| whole(run, 0xA5A5)).collect(),
    }
}

/// So many rounds of the plan of made calls, each call of it with each refusal.
const ROUNDS: u64 = 25;

#[test]
fn every_number_is_the_second_programs() {
    for seed in 0..ROUNDS * round() {
        let made = request(seed);
        assert!(reply(&made) == made.reply(None), "seed {seed} differs: {made}");
    }
}

/// All symbols of small fields, and of the largest the products with a few.
#[test]
fn fields() {
    let small = (0..8).flat_map(|p| (0..8).flat_map(move |a| (0..8).map(move |b| (p, a, b))));
    let largest = (0..930).flat_map(|a| [0, 1, 2, 464, 928, 929].into_iter().map(move |b| (929, a, b)));
    for (p, a, b) in small.chain(largest) {
        for name in ["sum", "difference", "product", "inverse"] {
            let symbols = if name == "inverse" { a.to_string() } else { format!("{a} {b}") };
            let made = Request::parse(&format!("{name} {p} {symbols} 1 9")).unwrap();
            assert!(reply(&made) == made.reply(None), "{made}");
        }
    }
}

#[test]
fn moduli() {
    for p in (0..1000).chain([65536 + 7, (1 << 32) + 7, u64::MAX]) {
        let made = Request::parse(&format!("is_modulus {p}")).unwrap();
        assert_eq!(reply(&made), made.reply(None), "{p}");
    }
}
