//! The second program: what the patch program must print, files made from a seed, and each call on text.

use std::io::{Read, Write};
use std::process::ExitCode;

use second::readings::Way;
use second::text::{self, Fields};
use second::{make, patch, request};

const USAGE: &str = "\
second patch [--way all|subsets|curve] < FILE
second make SEED > FILE
second calls SEED COUNT > CALLS
second batch [--way all|subsets|curve] < CALLS
second field sum|difference|product P A B
second field inverse P A
second setting P N K S TAU
second encode|find|check < NUMBERS
second list|read [--way all|subsets|curve] < NUMBERS";

fn main() -> ExitCode {
    let arguments: Vec<String> = std::env::args().skip(1).collect();
    let arguments: Vec<&str> = arguments.iter().map(String::as_str).collect();
    match answer(&arguments) {
        Ok(bytes) => match std::io::stdout().write_all(&bytes) {
            Ok(()) => ExitCode::SUCCESS,
            Err(_) => ExitCode::FAILURE,
        },
        Err(cause) => {
            eprintln!("{cause}\n{USAGE}");
            ExitCode::from(2)
        }
    }
}

/// What the command prints, or why it is not understood.
fn answer(arguments: &[&str]) -> Result<Vec<u8>, String> {
    let (command, rest) = arguments.split_first().ok_or("no command")?;
    match *command {
        "patch" => Ok(patch::run(&input()?, way(rest)?).into_bytes()),
        "make" => Ok(make::file(seed(rest)?)),
        "calls" => Ok(calls(rest)?.into_bytes()),
        "field" => Ok(text::field(&mut Fields::new(rest.to_vec()))?.into_bytes()),
        "setting" => Ok(text::setting(&mut Fields::new(rest.to_vec()))?.into_bytes()),
        call => on_input(call, rest).map(String::into_bytes),
    }
}

/// The calls that take their numbers from standard input.
fn on_input(call: &str, rest: &[&str]) -> Result<String, String> {
    if !["batch", "encode", "find", "check", "list", "read"].contains(&call) {
        return Err(format!("no command {call}"));
    }
    let way = way(rest)?;
    let input = String::from_utf8(input()?).map_err(|_| "the input is not text".to_string())?;
    let mut fields = Fields::of(&input);
    match call {
        "batch" => request::batch(&input, way),
        "encode" => text::encode(&mut fields),
        "find" => text::find(&mut fields),
        "check" => text::check(&mut fields),
        "list" => text::list(&mut fields, way),
        _ => text::read(&mut fields, way),
    }
}

fn input() -> Result<Vec<u8>, String> {
    let mut bytes = Vec::new();
    std::io::stdin().read_to_end(&mut bytes).map_err(|_| "no input".to_string())?;
    Ok(bytes)
}

fn way(arguments: &[&str]) -> Result<Option<Way>, String> {
    match arguments {
        [] => Ok(None),
        ["--way", name] => Way::from_name(name).map(Some).ok_or_else(|| format!("no way {name}")),
        _ => Err("too much is given".to_string()),
    }
}

fn seed(arguments: &[&str]) -> Result<u64, String> {
    match arguments {
        [seed] => seed.parse().map_err(|_| "the seed is not a number".to_string()),
        _ => Err("one seed is needed".to_string()),
    }
}

/// The calls of so many seeds in a row, one to a line.
fn calls(arguments: &[&str]) -> Result<String, String> {
    let (count, first) = arguments.split_last().ok_or("a seed and a count are needed")?;
    let (first, count) = (seed(first)?, seed(&[*count])?);
    Ok((0..count).map(|i| format!("{}\n", make::requests::request(first.wrapping_add(i)))).collect())
}
