//! "Patch file and its program": what must be printed for an input.

use std::fmt::Write;

use crate::calls::{below, equal_points, symbols};
use crate::readings::{readings, Way};
use crate::setting::Setting;
use crate::Symbol;

/// "The program has 24,000 numbers of work."
pub const WORK: usize = 24_000;

/// A record as it lies in the input.
struct Record<'a> {
    kind: u16,
    body: &'a [u8],
}

/// What is held between records. Points are only ever held under a setting.
#[derive(Default)]
struct Program {
    setting: Option<Setting>,
    points: Option<Vec<u16>>,
}

/// Everything that the program prints; a way of listing may be forced.
pub fn run(input: &[u8], way: Option<Way>) -> String {
    let mut program = Program::default();
    let mut printed = String::new();
    let mut rest = input;
    let mut number = 0u64;
    while !rest.is_empty() {
        number += 1;
        let Some((record, after)) = record(rest) else {
            printed += &format!("{number} 0 10\n");
            return printed;
        };
        printed += &program.line(number, &record, way);
        rest = after;
    }
    printed
}

/// The first record and what comes after it; none on refusal 10.
fn record(input: &[u8]) -> Option<(Record<'_>, &[u8])> {
    let length = number(input.get(0..2)?) as usize;
    if !(2..=130).contains(&length) || length % 2 == 1 {
        return None;
    }
    let record = input.get(2..2 + length)?;
    let kind = number(&record[..2]);
    if kind == 1 && length != 12 {
        return None;
    }
    Some((Record { kind, body: &record[2..] }, &input[2 + length..]))
}

/// Two bytes, little-endian.
fn number(bytes: &[u8]) -> u16 {
    bytes[0] as u16 + 256 * bytes[1] as u16
}

fn numbers(body: &[u8]) -> Vec<u16> {
    body.chunks(2).map(number).collect()
}

impl Program {
    /// The line of a record, with the candidates' lines after it.
    fn line(&mut self, number: u64, record: &Record, way: Option<Way>) -> String {
        let body = numbers(record.body);
        let outcome = match record.kind {
            1 => self.take_setting(&body).map(|()| None),
            2 => self.take_points(&body).map(|()| None),
            3 => self.read(&body, way).map(Some),
            _ => Err(11),
        };
        match outcome {
            Err(refusal) => format!("{number} {} {refusal}\n", record.kind),
            Ok(None) => format!("{number} {} 0\n", record.kind),
            Ok(Some(list)) => format!("{number} {} 0 {}\n{}", record.kind, list.len(), candidates(&list)),
        }
    }

    /// "A kind 1 record first drops the held setting and points; a refused one leaves them dropped."
    fn take_setting(&mut self, body: &[u16]) -> Result<(), u64> {
        self.setting = None;
        self.points = None;
        let parameter = |place: usize| body[place] as u64;
        let setting = Setting::accept(parameter(0), parameter(1), parameter(2), parameter(3), parameter(4))?;
        if setting.r > WORK {
            return Err(8);
        }
        self.setting = Some(setting);
        Ok(())
    }

    /// "a kind 2 record the held points"
    fn take_points(&mut self, body: &[u16]) -> Result<(), u64> {
        self.points = None;
        let setting = self.setting.as_ref().ok_or(12u64)?;
        run_of_symbols(setting, body)?;
        if equal_points(body) {
            return Err(7);
        }
        self.points = Some(body.to_vec());
        Ok(())
    }

    fn read(&self, body: &[u16], way: Option<Way>) -> Result<Vec<Vec<Symbol>>, u64> {
        let (Some(setting), Some(points)) = (&self.setting, &self.points) else {
            return Err(12);
        };
        run_of_symbols(setting, body)?;
        let way = way.unwrap_or_else(|| Way::cheapest(setting));
        Ok(readings(setting, &symbols(points), &symbols(body), way))
    }
}

/// Refusals 5 and 6 of points or a word.
fn run_of_symbols(setting: &Setting, body: &[u16]) -> Result<(), u64> {
    if body.len() != setting.n {
        Err(5)
    } else if !below(setting.p as u64, body) {
        Err(6)
    } else {
        Ok(())
    }
}

/// "After it comes "+" and k symbols for each candidate."
fn candidates(list: &[Vec<Symbol>]) -> String {
    let mut lines = String::new();
    for message in list {
        lines.push('+');
        for symbol in message {
            write!(lines, " {symbol}").expect("a string takes all");
        }
        lines.push('\n');
    }
    lines
}
