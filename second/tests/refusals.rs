//! Every refusal of every call that has it, in the table's order, with each buffer as it was.

mod common;

use common::*;
use second::calls::*;

/// Arguments of a call on Seven, s 1, τ 3, each as it should be until a test spoils it.
#[derive(Clone)]
struct Arguments {
    parameters: Parameters,
    points: Vec<u16>,
    word: Vec<u16>,
    curve: Vec<u16>,
    output: usize,
    buffer: usize,
    work: usize,
}

fn good() -> Arguments {
    let mut curve = vec![0; 16];
    curve[5] = 6;
    curve[8] = 1;
    let (points, word) = (POINTS.to_vec(), WORD.to_vec());
    Arguments { parameters: seven(1, 3), points, word, curve, output: 6, buffer: 16, work: 144 }
}

/// The refusals of find, check, list and read; a refused call has changed nothing.
fn refusals(a: &Arguments) -> [u64; 4] {
    let buffers = Buffers::new(a.output, a.buffer, a.work);
    let no_output = Lent { output: &[], ..buffers.lent() };
    let no_curve = Lent { curve: &[], ..buffers.lent() };
    let find = find_call(&a.parameters, &a.points, &a.word, no_output);
    let check = check_call(&a.parameters, &a.points, &a.word, &a.curve);
    let list = list_call(&a.parameters, &a.points, &a.word, &a.curve, no_curve, None);
    let read = read_call(&a.parameters, &a.points, &a.word, buffers.lent(), None);
    for (outcome, lent) in [(&find, no_output), (&list, no_curve), (&read, buffers.lent())] {
        if outcome.refusal != 0 {
            assert_eq!((outcome.found, outcome.tried), (0, 0));
            assert_eq!(
                (&outcome.output[..], &outcome.curve[..], &outcome.work[..]),
                (lent.output, lent.curve, lent.work)
            );
        }
    }
    assert!(check.refusal == 0 || !check.yes);
    [find.refusal, check.refusal, list.refusal, read.refusal]
}

type Spoil = fn(&mut Arguments);

/// A spoiled argument and the refusals of find, check, list and read that follow; any of these may come together.
const CAUSES: [(Spoil, [u64; 4]); 12] = [
    (|a| a.parameters.p = 4, [1; 4]),
    (|a| a.parameters.s = 5, [2; 4]),
    (|a| a.parameters.tau = 4, [3; 4]),
    (|a| a.word.push(0), [5; 4]),
    (|a| a.curve.push(0), [0, 5, 5, 0]),
    (|a| a.word[6] = 65535, [6; 4]),
    (|a| a.curve[15] = 7, [0, 6, 6, 0]),
    (|a| a.points[6] = 0, [7; 4]),
    (|a| a.output = 5, [0, 0, 8, 8]),
    (|a| a.buffer = 15, [8, 0, 0, 8]),
    (|a| a.work = 143, [8, 0, 8, 8]),
    (|a| a.curve[0] = 1, [0, 0, 9, 0]),
];

/// Further causes, each alone.
const FURTHER: [(Spoil, [u64; 4]); 9] = [
    (|a| a.parameters.n = 65, [2; 4]),
    (|a| a.parameters.k = 1, [2; 4]),
    (|a| a.parameters.tau = 7, [2; 4]),
    (|a| a.parameters = parameters(929, 64, 2, 1, 38), [4; 4]),
    (|a| a.points.truncate(6), [5; 4]),
    (|a| a.word.clear(), [5; 4]),
    (|a| a.curve.truncate(15), [0, 5, 5, 0]),
    (|a| a.points[3] = 7, [6; 4]),
    (|a| a.curve.fill(0), [0, 0, 9, 0]),
];

#[test]
fn each_cause_alone() {
    for (place, (spoil, expected)) in CAUSES.iter().chain(&FURTHER).enumerate() {
        let mut spoiled = good();
        spoil(&mut spoiled);
        assert_eq!(refusals(&spoiled), *expected, "cause {place}");
    }
}

/// "the lowest that applies is given, and never without its cause": all sets of causes.
#[test]
fn the_lowest_of_all_causes() {
    for set in 0..1 << CAUSES.len() {
        let mut spoiled = good();
        let mut lowest = [0; 4];
        for (place, (spoil, numbers)) in CAUSES.iter().enumerate().rev() {
            if set >> place & 1 == 1 {
                spoil(&mut spoiled);
                (0..4).filter(|&call| numbers[call] > 0).for_each(|call| lowest[call] = numbers[call]);
            }
        }
        assert_eq!(refusals(&spoiled), lowest, "set {set:b}");
    }
}

#[test]
fn accepted_calls_leave_the_rest_untouched() {
    let a = good();
    let buffers = Buffers::new(9, 20, 150);
    let find = find_call(&a.parameters, &a.points, &a.word, Lent { output: &[], ..buffers.lent() });
    assert_eq!((find.refusal, find.found, find.tried), (0, 0, 0));
    assert_eq!(find.curve, [&a.curve[..], &[8; 4]].concat());
    assert_eq!(find.work, [vec![0; 144], vec![7; 6]].concat());
    let read = read_call(&a.parameters, &a.points, &a.word, buffers.lent(), None);
    assert_eq!((read.refusal, read.found, read.tried), (0, 2, 4));
    assert_eq!(read.output, [0, 0, 0, 1, 9, 9, 9, 9, 9]);
    assert_eq!((&read.curve, &read.work), (&find.curve, &find.work));
}

#[test]
fn encode_refusals() {
    let call = |p, n, k, points: &[u16], message: &[u16], room: usize| {
        let outcome = encode_call(p, n, k, points, message, &vec![9; room]);
        assert!(outcome.refusal == 0 || outcome.output == vec![9; room]);
        outcome.refusal
    };
    assert_eq!(call(7, 7, 2, &POINTS, &[3, 2], 7), 0);
    assert_eq!(call(9, 65, 2, &POINTS[1..], &[3, 7], 6), 1);
    assert_eq!(call(7, 65, 2, &POINTS[1..], &[3, 7], 6), 2);
    assert_eq!(call(7, 7, 8, &POINTS[1..], &[3, 7], 6), 2);
    assert_eq!(call(7, 7, 2, &POINTS[1..], &[3, 7], 6), 5);
    assert_eq!(call(7, 7, 2, &POINTS, &[3, 2, 0], 6), 5);
    assert_eq!(call(7, 7, 2, &[0, 1, 2, 3, 4, 5, 5], &[3, 7], 6), 6);
    assert_eq!(call(7, 7, 2, &[0, 1, 2, 3, 4, 5, 7], &[3, 2], 6), 6);
    assert_eq!(call(7, 7, 2, &[0, 1, 2, 3, 4, 5, 5], &[3, 2], 6), 7);
    assert_eq!(call(7, 7, 2, &POINTS, &[3, 2], 6), 8);
    // no s and τ: n and k alone are enough, whatever U and C would be
    assert_eq!(call(7, 7, 7, &POINTS, &[1; 7], 7), 0);
}
