//! Calls as lines: what is read is what was written, replies equal the calls', and made calls meet every refusal.

use std::collections::BTreeSet;

use second::make::requests::{request, round};
use second::request::{batch, Request, FORMS};

const SEVEN: &str = "7 7 2 1 3 7 0 1 2 3 4 5 6 7 0 0 0 0 4 5 6";
const CURVE: &str = "16 0 0 0 0 0 6 0 0 1 0 0 0 0 0 0 0";

fn replies(calls: &str, expected: &str) {
    assert_eq!(batch(calls, None), Ok(expected.to_string()), "{calls}");
}

#[test]
fn lines_without_runs() {
    replies("is_modulus 929\nis_modulus 928", "1\n\n0\n\n");
    replies("sum 929 928 2 1=5", "0 1\n\n");
    replies("difference 7 2 5 1 9", "0 4\n\n");
    replies("product 7 2 7 1 9", "6 0\n\n");
    replies("inverse 929 2 1 9", "0 465\n\n");
    replies("setting 7 7 2 1 3 5=9", "0 4 3 7 10 144\n\n");
    replies("setting 7 7 2 1 4 5=9", "3 0 0 0 0 0\n\n");
}

#[test]
fn an_answer_of_another_length() {
    replies("inverse 929 2 0", "0\n\n");
    replies("inverse 929 2 3 9 18446744073709551615 8", "0 465 18446744073709551615 8\n\n");
    replies("setting 7 7 2 1 3 2=9", "0 4 3\n\n");
    replies(&format!("check {SEVEN} {CURVE} 0"), "0\n\n");
    let zeros = " 0".repeat(144);
    let read = |answer, told| replies(&format!("read {SEVEN} 7=9 16=9 144=9 {answer}"), &read_reply(told, &zeros));
    read("0", "0");
    read("1 5", "0 2");
    read("2 5 5", "0 2 4");
    read("4 5 5 6 7", "0 2 4 6 7");
}

fn read_reply(told: &str, zeros: &str) -> String {
    format!("{told}\n7 0 0 0 1 9 9 9\n{CURVE}\n144{zeros}\n\n")
}

#[test]
fn lines_with_runs() {
    let zeros = " 0".repeat(144);
    replies("encode 7 7 2 7 0 1 2 3 4 5 6 2 3 2 8=9", "0\n8 3 5 0 2 4 6 1 9\n\n");
    replies(&format!("check {SEVEN} {CURVE} 1 9\ncheck {SEVEN} 16=0 1 9"), "0 1\n\n0 0\n\n");
    replies(&format!("find {SEVEN} 16=9 145=9"), &format!("0\n{CURVE}\n145{zeros} 9\n\n"));
    replies(&format!("find {SEVEN} 3 7 8 9 2 5 6"), "8\n3 7 8 9\n2 5 6\n\n");
    replies(&format!("list {SEVEN} {CURVE} 6=9 144=9 2=9"), &format!("0 2 4\n6 0 0 0 1 9 9\n144{zeros}\n\n"));
    replies(&format!("list {SEVEN} 16=0 1 9 0 2=9"), "8 0 0\n1 9\n0\n\n");
}

#[test]
fn lines_not_understood() {
    for call in ["", "other 7", "sum 7 1 2", "sum 7 1 2 1 9 9", "sum 7 1 65536 1 9", "encode 7 7 2 1 2", "is_modulus"] {
        assert!(batch(&format!("is_modulus 7\n{call}\n"), None).is_err(), "{call}");
    }
}

#[test]
fn what_is_written_is_read() {
    for seed in 0..3 * round() {
        let made = request(seed);
        assert_eq!(Request::parse(&made.to_string()), Ok(made), "seed {seed}");
    }
}

/// The refusals that document 01 gives each call; for is_modulus what it returns.
fn numbers_of(call: &str) -> Vec<u64> {
    match call {
        "is_modulus" => vec![0, 1],
        "sum" | "difference" | "product" | "inverse" => vec![0, 1, 6],
        "setting" => (0..=4).collect(),
        "encode" => vec![0, 1, 2, 5, 6, 7, 8],
        "check" => (0..=7).collect(),
        "list" => (0..=9).collect(),
        _ => (0..=8).collect(),
    }
}

#[test]
fn made_calls_meet_every_refusal() {
    let mut met = BTreeSet::new();
    let mut lists = BTreeSet::new();
    for seed in 0..10 * round() {
        let made = request(seed);
        let reply = made.reply(None);
        met.insert((made.form.name, reply.returned));
        if made.form.name == "read" && made.answer.len() > 1 && reply.returned == 0 {
            lists.insert(reply.answer[0].min(2));
        }
        if reply.returned != 0 && made.form.name != "is_modulus" {
            let lent = made.form.runs - made.form.lent;
            assert_eq!(reply.lent, made.runs[lent..], "seed {seed}");
            assert!(reply.answer.iter().take(made.form.results).all(|&result| result == 0), "seed {seed}");
        }
    }
    let all = FORMS.iter().flat_map(|form| numbers_of(form.name).into_iter().map(move |number| (form.name, number)));
    assert_eq!(met, all.collect());
    assert_eq!(lists, BTreeSet::from([0, 1, 2]));
}

#[test]
fn both_answers_of_the_check_are_met() {
    let replies = (0..6 * round()).map(request).filter(|made| made.form.name == "check" && !made.answer.is_empty());
    let answers: BTreeSet<u64> =
        replies.map(|made| made.reply(None)).filter(|r| r.returned == 0).map(|r| r.answer[0]).collect();
    assert_eq!(answers, BTreeSet::from([0, 1]));
}
