//! The patch program's lines, and the files made from seeds.

mod common;

use common::*;
use second::calls::read_call;
use second::make;
use second::patch::run;
use second::readings::Way;
use std::collections::BTreeSet;

fn record(kind: u16, body: &[u16]) -> Vec<u8> {
    let length = 2 + 2 * body.len() as u16;
    [length, kind].iter().chain(body).flat_map(|number| number.to_le_bytes()).collect()
}

fn printed(records: &[Vec<u8>]) -> String {
    run(&records.concat(), None)
}

const SETTING: [u16; 5] = [7, 7, 2, 1, 3];

#[test]
fn the_input_ends() {
    assert_eq!(run(&[], None), "");
    let whole = record(1, &SETTING);
    for length in 1..whole.len() {
        assert_eq!(run(&whole[..length], None), "1 0 10\n");
    }
    let mut two = whole.clone();
    two.push(0);
    assert_eq!(run(&two, None), "1 1 0\n2 0 10\n");
}

#[test]
fn lengths() {
    for length in [0u16, 1, 3, 129, 131, 132, 65535] {
        let input = [length.to_le_bytes().to_vec(), vec![0; 200]].concat();
        assert_eq!(run(&input, None), "1 0 10\n");
    }
    assert_eq!(printed(&[record(1, &[7, 7, 2, 1]), record(9, &[])]), "1 0 10\n");
    assert_eq!(printed(&[record(1, &[]), record(9, &[])]), "1 0 10\n");
    assert_eq!(printed(&[record(9, &[0; 64]), record(0, &[]), record(65535, &[1])]), "1 9 11\n2 0 11\n3 65535 11\n");
}

#[test]
fn held_and_dropped() {
    let (points, word) = (record(2, &POINTS), record(3, &WORD));
    let setting = record(1, &SETTING);
    assert_eq!(printed(&[points.clone(), word.clone()]), "1 2 12\n2 3 12\n");
    assert_eq!(printed(&[setting.clone(), word.clone()]), "1 1 0\n2 3 12\n");
    // 12 is tested before the body
    assert_eq!(printed(&[record(2, &[]), record(3, &[65535; 64])]), "1 2 12\n2 3 12\n");
    let good = [setting.clone(), points.clone(), word.clone()];
    let lines = "1 1 0\n2 2 0\n3 3 0 2\n+ 0 0\n+ 0 1\n";
    let after = |more: &[Vec<u8>]| printed(&[&good[..], more].concat()).strip_prefix(lines).unwrap().to_string();
    assert_eq!(after(&[word.clone()]), "4 3 0 2\n+ 0 0\n+ 0 1\n");
    assert_eq!(after(&[setting.clone(), word.clone()]), "4 1 0\n5 3 12\n");
    assert_eq!(after(&[record(1, &[8, 7, 2, 1, 3]), points.clone(), word.clone()]), "4 1 1\n5 2 12\n6 3 12\n");
    assert_eq!(after(&[record(2, &[0; 7]), word.clone()]), "4 2 7\n5 3 12\n");
    assert_eq!(
        after(&[record(2, &POINTS[1..]), word.clone(), points.clone(), word.clone()]),
        "4 2 5\n5 3 12\n6 2 0\n7 3 0 2\n+ 0 0\n+ 0 1\n"
    );
    assert_eq!(after(&[record(3, &WORD[1..]), record(3, &[7; 7]), record(4, &[])]), "4 3 5\n5 3 6\n6 4 11\n");
    assert_eq!(after(&[record(3, &[1, 2, 3, 4, 5, 6, 1])]), "4 3 0 1\n+ 1 1\n");
}

#[test]
fn work_of_24_000() {
    assert_eq!(printed(&[record(1, &[929, 64, 11, 2, 14])]), "1 1 0\n");
    assert_eq!(printed(&[record(1, &[929, 64, 40, 2, 0]), record(2, &[])]), "1 1 8\n2 2 12\n");
    assert_eq!(printed(&[record(1, &[929, 64, 2, 4, 56])]), "1 1 3\n");
}

/// A word's lines follow from the reading call.
#[test]
fn lines_of_a_word() {
    let mut random = second::random::Random::new(7);
    for _ in 0..100 {
        let (s, points) = small_setting(&mut random, &[5, 7, 11, 13], 9);
        let word = narrow(&some_word(&mut random, &s, &points));
        let points = narrow(&points);
        let numbers = [s.p as u16, s.n as u16, s.k as u16, s.s as u16, s.tau as u16];
        let lines = printed(&[record(1, &numbers), record(2, &points), record(3, &word)]);
        let [p, n, k, m, tau] = numbers.map(u64::from);
        let buffers = Buffers::for_setting(&s, 0);
        let outcome = read_call(&parameters(p, n, k, m, tau), &points, &word, buffers.lent(), Some(Way::Curve));
        let mut expected = format!("1 1 0\n2 2 0\n3 3 0 {}\n", outcome.found);
        for message in outcome.output.chunks(s.k).take(outcome.found) {
            let symbols: Vec<String> = message.iter().map(u16::to_string).collect();
            expected += &format!("+ {}\n", symbols.join(" "));
        }
        assert_eq!(lines, expected);
    }
}

/// The made files have every kind of line, and the ways of listing print the same.
#[test]
fn made_files() {
    let mut lines = BTreeSet::new();
    let mut lists: BTreeSet<u64> = BTreeSet::new();
    for seed in 0..10 * make::THEMES.len() as u64 {
        let file = make::file(seed);
        assert_eq!(file, make::file(seed));
        let output = run(&file, None);
        assert_eq!(output, run(&file, Some(Way::Curve)), "seed {seed}");
        for line in output.lines().filter(|line| !line.starts_with('+')) {
            let fields: Vec<u64> = line.split(' ').map(|field| field.parse().unwrap()).collect();
            lines.insert((fields[1].min(4), fields[2]));
            lists.extend(fields.get(3));
        }
    }
    let settings = [0, 1, 2, 3, 4, 8].map(|refusal| (1, refusal));
    let points = [0, 5, 6, 7, 12].map(|refusal| (2, refusal));
    let words = [0, 5, 6, 12].map(|refusal| (3, refusal));
    let expected = [&settings[..], &points, &words, &[(0, 10), (0, 11), (4, 11)]].concat();
    assert_eq!(lines, expected.into_iter().collect());
    assert!([0, 1, 2, 3].iter().all(|count| lists.contains(count)), "{lists:?}");
}
