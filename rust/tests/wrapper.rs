//! The safe calls, which allocate: next to the second program on made calls, and on numbers that are known.

use second::make::requests::{request, round};
use second::request::{Reply, Request};
use whitebeamish::{encode, field, Reading, Refusal, Setting, Taus};

/// The second program's reply where the room is exactly what is needed and the answer has just its results.
fn expected(request: &Request, rooms: &[usize]) -> Reply {
    let mut request = request.clone();
    let given = request.form.runs - request.form.lent;
    for (run, &room) in request.runs[given..].iter_mut().zip(rooms) {
        *run = vec![0; room];
    }
    request.answer = vec![0; request.form.results];
    request.reply(None)
}

fn number<T>(result: &Result<T, Refusal>) -> u64 {
    result.as_ref().err().map_or(0, |refusal| refusal.number().into())
}

/// The list of a reply: its messages stand at the front of the first lent run.
fn listed(reply: &Reply, k: usize) -> Reading {
    let found = reply.answer[0] as usize;
    let messages = reply.lent[0].chunks(k).take(found).map(<[u16]>::to_vec).collect();
    Reading { messages, beginnings: reply.answer[1] as usize }
}

fn compare_under(setting: &Setting, request: &Request) {
    let (points, word, k) = (&request.runs[0], &request.runs[1], setting.parameters().k);
    let (output, curve, work) = (setting.output_room(), setting.curve_room(), setting.work_room());
    match request.form.name {
        "check" => {
            let (reply, result) = (expected(request, &[]), setting.check(points, word, &request.runs[2]));
            assert_eq!((number(&result), u64::from(result == Ok(true))), (reply.returned, reply.answer[0]));
        }
        "find" => {
            let (reply, result) = (expected(request, &[curve, work]), setting.find(points, word));
            assert_eq!(number(&result), reply.returned);
            assert!(result.map_or(true, |found| found == reply.lent[0]));
        }
        "list" => {
            let (reply, result) = (expected(request, &[output, work]), setting.list(points, word, &request.runs[2]));
            assert_eq!(number(&result), reply.returned);
            assert!(result.map_or(true, |reading| reading == listed(&reply, k)));
        }
        _ => {
            let (reply, result) = (expected(request, &[output, curve, work]), setting.read(points, word));
            assert_eq!(number(&result), reply.returned);
            assert!(result.map_or(true, |reading| reading == listed(&reply, k)));
        }
    }
}

#[test]
fn settings_and_words() {
    let mut accepted = 0;
    let made = (0..12 * round()).map(request).filter(|made| made.form.numbers == 5);
    for made in made {
        let v: Vec<usize> = made.numbers.iter().map(|&number| number as usize).collect();
        let alone = Request::parse(&format!("setting {} {} {} {} {} 5=0", v[0], v[1], v[2], v[3], v[4])).unwrap();
        let derived = alone.reply(None);
        let result = Setting::new(v[0], v[1], v[2], v[3], v[4]);
        assert_eq!(number(&result), derived.returned);
        if let Ok(setting) = result {
            let d = setting.derived();
            assert_eq!([d.w, d.l, d.c, d.u, d.r].map(|number| number as u64)[..], derived.answer);
            if made.form.runs > 0 {
                compare_under(&setting, &made);
                accepted += 1;
            }
        }
    }
    assert!(accepted > 100);
}

#[test]
fn encoding() {
    for made in (0..40 * round()).map(request).filter(|made| made.form.name == "encode") {
        let [p, n, k] = [0, 1, 2].map(|place| made.numbers[place] as usize);
        let reply = expected(&made, &[n.min(64)]);
        let result = encode(p, n, k, &made.runs[0], &made.runs[1]);
        assert_eq!(number(&result), reply.returned, "{made}");
        assert!(result.map_or(true, |patch| patch == reply.lent[0]), "{made}");
    }
}

const POINTS: [u16; 7] = [0, 1, 2, 3, 4, 5, 6];
const WORD: [u16; 7] = [0, 0, 0, 0, 4, 5, 6];

#[test]
fn seven() {
    let setting = Setting::new(7, 7, 2, 1, 3).unwrap();
    let two = Reading { messages: vec![vec![0, 0], vec![0, 1]], beginnings: 4 };
    assert_eq!(setting.encode(&POINTS, &[3, 2]).unwrap(), [3, 5, 0, 2, 4, 6, 1]);
    assert_eq!(setting.read(&POINTS, &WORD).unwrap(), two);
    let mut curve = vec![0; 16];
    assert_eq!(setting.check(&POINTS, &WORD, &curve), Ok(false));
    assert_eq!(setting.list(&POINTS, &WORD, &curve), Err(Refusal::CurveFails));
    curve[5] = 6;
    curve[8] = 1;
    assert_eq!(setting.check(&POINTS, &WORD, &curve), Ok(true));
    assert_eq!(setting.list(&POINTS, &WORD, &curve).unwrap(), two);
    assert_eq!(setting.find(&POINTS, &WORD[1..]), Err(Refusal::WrongLength));
    assert!(Setting::new(7, 7, 2, 1, 2).unwrap().read(&POINTS, &WORD).unwrap().messages.is_empty());
    assert_eq!(Setting::new(7, 7, 2, 1, 4), Err(Refusal::TooFewTerms(Taus::Between(0, 3))));
}

/// The setting call of the second program, which must take the same τ.
fn accepted(p: usize, n: usize, k: usize, s: usize) -> Vec<usize> {
    let taken = |tau: &usize| {
        let call = Request::parse(&format!("setting {p} {n} {k} {s} {tau} 5=0")).unwrap();
        call.reply(None).returned == 0
    };
    (0..n).filter(taken).collect()
}

#[test]
fn largest() {
    for (n, k, s) in (2..=64).step_by(3).flat_map(|n| (2..=n).step_by(2).flat_map(move |k| (1..=4).map(move |s| (n, k, s)))) {
        let taken = accepted(929, n, k, s);
        let found = Setting::largest(929, n, k, s).map(|setting| setting.parameters().tau);
        assert_eq!(found.ok(), taken.last().copied(), "{n} {k} {s}");
    }
    assert_eq!(Setting::largest(929, 32, 8, 4).unwrap().parameters().tau, 16);
    assert_eq!(Setting::largest(929, 64, 2, 4), Err(Refusal::ListTooLong(Taus::None)));
    assert_eq!(Setting::largest(928, 7, 2, 1), Err(Refusal::NoModulus));
    for n in [0, 1, 65, usize::MAX] {
        assert_eq!(Setting::largest(929, n, 2, 1), Err(Refusal::OutOfRange));
    }
}

#[test]
fn refused_taus() {
    for (n, k, s, tau, words) in [
        (32, 8, 4, 17, "refused with 3: U ≤ C: τ is too large; the largest accepted is 16"),
        (32, 8, 4, 32, "refused with 2: n, k, s or τ is outside its range"),
        (64, 2, 1, 38, "refused with 4: ℓ > 24: τ is too small; the smallest accepted is 39"),
        (64, 2, 4, 56, "refused with 3: U ≤ C: τ is too large; no τ is accepted with this n, k and s"),
    ] {
        assert_eq!(Setting::new(929, n, k, s, tau).unwrap_err().to_string(), words);
    }
}

#[test]
fn field_calls() {
    assert!(field::is_modulus(929) && !field::is_modulus(928) && !field::is_modulus(937));
    assert_eq!((field::inverse(929, 2), field::inverse(929, 3), field::inverse(929, 0)), (Ok(465), Ok(310), Ok(0)));
    assert_eq!((field::sum(929, 928, 2), field::difference(7, 2, 5), field::product(7, 3, 4)), (Ok(1), Ok(4), Ok(5)));
    assert_eq!(field::sum(928, 1, 1), Err(Refusal::NoModulus));
    assert_eq!(field::product(7, 7, 1), Err(Refusal::NoSymbol));
}

#[test]
fn refusals() {
    assert_eq!(Refusal::test(0), Ok(()));
    for (number, refusal) in (1..).zip(Refusal::ALL) {
        assert_eq!((refusal.number(), Refusal::test(number)), (number, Err(refusal)));
    }
    assert_eq!(Refusal::ALL[2].to_string(), "refused with 3: U ≤ C: τ is too large");
    assert_eq!(encode(7, usize::MAX, 2, &POINTS, &[3, 2]), Err(Refusal::OutOfRange));
}
