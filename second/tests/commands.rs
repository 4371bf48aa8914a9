//! The binary's commands and text forms.

use std::io::Write;
use std::process::{Command, Stdio};

fn second(arguments: &[&str], input: &[u8]) -> (Option<i32>, String) {
    let mut command = Command::new(env!("CARGO_BIN_EXE_second"));
    command.args(arguments).stdin(Stdio::piped()).stdout(Stdio::piped()).stderr(Stdio::null());
    let mut child = command.spawn().unwrap();
    // A command that takes no input may have ended already.
    let _ = child.stdin.take().unwrap().write_all(input);
    let output = child.wait_with_output().unwrap();
    (output.status.code(), String::from_utf8_lossy(&output.stdout).into_owned())
}

fn prints(arguments: &[&str], input: &str, expected: &str) {
    assert_eq!(second(arguments, input.as_bytes()), (Some(0), expected.to_string()), "{arguments:?} {input}");
}

#[test]
fn arguments_only() {
    prints(&["field", "sum", "929", "928", "2"], "", "0 1\n");
    prints(&["field", "difference", "7", "2", "5"], "", "0 4\n");
    prints(&["field", "product", "7", "2", "7"], "", "6 0\n");
    prints(&["field", "inverse", "929", "2"], "", "0 465\n");
    prints(&["field", "inverse", "18446744073709551615", "2"], "", "1 0\n");
    prints(&["setting", "7", "7", "2", "1", "3"], "", "0 4 3 7 10 144\n");
    prints(&["setting", "7", "7", "2", "1", "4"], "", "3 0 0 0 0 0\n");
}

const SEVEN: &str = "7 7 2 1 3  7 0 1 2 3 4 5 6  7 0 0 0 0 4 5 6";
const CURVE: &str = "16 0 0 0 0 0 6 0 0 1 0 0 0 0 0 0 0";

#[test]
fn numbers_from_input() {
    prints(&["encode"], "7 7 2  7 0 1 2 3 4 5 6  2 3 2  8=9", "0\n8 3 5 0 2 4 6 1 9\n");
    prints(&["encode"], "7 7 2  7 0 1 2 3 4 5 6  2 3 2  2 9 8", "8\n2 9 8\n");
    prints(&["check"], &format!("{SEVEN} {CURVE}"), "0 1\n");
    prints(&["check"], &format!("{SEVEN} 16=0"), "0 0\n");
    prints(&["check"], &format!("{SEVEN} 0"), "5 0\n");
    prints(&["find"], &format!("{SEVEN} 16=9 3 1 2 3"), "8 0 0\n16 9 9 9 9 9 9 9 9 9 9 9 9 9 9 9 9\n3 1 2 3\n");
    let zeros = " 0".repeat(144);
    prints(&["find"], &format!("{SEVEN} 16=9 145=9"), &format!("0 0 0\n{CURVE}\n145{zeros} 9\n"));
    for way in [&[][..], &["--way", "all"], &["--way", "subsets"], &["--way", "curve"]] {
        let list = format!("0 2 4\n6 0 0 0 1 9 9\n144{zeros}\n");
        prints(&[&["list"], way].concat(), &format!("{SEVEN} {CURVE} 6=9 144=9"), &list);
        let read = format!("0 2 4\n6 0 0 0 1 9 9\n{CURVE}\n144{zeros}\n");
        prints(&[&["read"], way].concat(), &format!("{SEVEN} 6=9 16=9 144=9"), &read);
    }
}

#[test]
fn many_calls() {
    let calls: String = (5..25).map(|seed| format!("{}\n", second::make::requests::request(seed))).collect();
    prints(&["calls", "5", "20"], "", &calls);
    prints(&["batch"], &calls, &second::request::batch(&calls, None).unwrap());
    prints(&["batch"], "", "");
}

#[test]
fn files() {
    let made = second::make::file(3);
    assert_eq!(second(&["patch"], &made), (Some(0), second::patch::run(&made, None)));
    assert_eq!(second(&["patch"], &[]), (Some(0), String::new()));
    assert_eq!(second(&["make", "3"], &[]).0, Some(0));
}

#[test]
fn not_understood() {
    for arguments in [
        &[][..],
        &["other"],
        &["make"],
        &["make", "x"],
        &["calls", "1"],
        &["calls", "1", "x"],
        &["batch"],
        &["patch", "--way", "no"],
        &["setting", "7"],
        &["read"],
    ] {
        assert_eq!(second(arguments, b"7 7"), (Some(2), String::new()), "{arguments:?}");
    }
}
