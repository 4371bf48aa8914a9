//! Calls with all that they take: as a line of text each, and with their replies.
//! Programs that link the library are compared with this one on such lines.

use std::fmt;

use crate::calls::{check_call, encode_call, find_call, list_call, read_call, setting_call};
use crate::calls::{difference_call, inverse_call, product_call, sum_call};
use crate::calls::{Lent, Outcome, Parameters};
use crate::field::is_modulus;
use crate::readings::Way;
use crate::text::{line, Fields};

/// What a call takes, in this order: numbers, symbols, runs, and the answer.
#[derive(Debug, PartialEq, Eq)]
pub struct Form {
    pub name: &'static str,
    pub numbers: usize,
    pub symbols: usize,
    pub runs: usize,
    /// How many of the runs are lent, the last ones: the call may write to them.
    pub lent: usize,
    /// How many results go to the answer. A call without results takes no answer.
    pub results: usize,
}

const fn form(name: &'static str, taken: [usize; 3], lent: usize, results: usize) -> Form {
    let [numbers, symbols, runs] = taken;
    Form { name, numbers, symbols, runs, lent, results }
}

pub static FORMS: [Form; 11] = [
    form("is_modulus", [1, 0, 0], 0, 0),
    form("sum", [1, 2, 0], 0, 1),
    form("difference", [1, 2, 0], 0, 1),
    form("product", [1, 2, 0], 0, 1),
    form("inverse", [1, 1, 0], 0, 1),
    form("setting", [5, 0, 0], 0, 5),
    form("encode", [3, 0, 3], 1, 0),
    form("check", [5, 0, 3], 0, 1),
    form("find", [5, 0, 4], 2, 0),
    form("list", [5, 0, 5], 2, 2),
    form("read", [5, 0, 5], 3, 2),
];

impl Form {
    pub fn of(name: &str) -> Option<&'static Form> {
        FORMS.iter().find(|form| form.name == name)
    }
}

/// A call and everything that is given to it.
#[derive(Clone, Debug, PartialEq, Eq)]
pub struct Request {
    pub form: &'static Form,
    pub numbers: Vec<u64>,
    pub symbols: Vec<u16>,
    pub runs: Vec<Vec<u16>>,
    pub answer: Vec<u64>,
}

/// What the call returns (the refusal; whether p is a modulus), and the answer and the lent runs after it.
#[derive(Clone, Debug, PartialEq, Eq)]
pub struct Reply {
    pub returned: u64,
    pub answer: Vec<u64>,
    pub lent: Vec<Vec<u16>>,
}

impl Request {
    /// A line: the call's name, its numbers, symbols and runs, and the answer as a run.
    pub fn parse(text: &str) -> Result<Request, String> {
        let mut fields = Fields::of(text);
        let name = fields.field()?;
        let form = Form::of(name).ok_or_else(|| format!("no call {name}"))?;
        let request = Request {
            form,
            numbers: (0..form.numbers).map(|_| fields.number()).collect::<Result<_, _>>()?,
            symbols: (0..form.symbols).map(|_| fields.number()).collect::<Result<_, _>>()?,
            runs: (0..form.runs).map(|_| fields.run()).collect::<Result<_, _>>()?,
            answer: if form.results > 0 { fields.run()? } else { Vec::new() },
        };
        fields.end()?;
        Ok(request)
    }

    pub fn reply(&self, way: Option<Way>) -> Reply {
        match (self.form.name, &self.runs[..]) {
            ("is_modulus", _) => self.returning(is_modulus(self.numbers[0]).into(), &[], vec![]),
            ("setting", _) => {
                let d = setting_call(&self.parameters());
                self.returning(d.refusal, &[d.w, d.l, d.c, d.u, d.r], vec![])
            }
            ("encode", [points, message, output]) => {
                let [p, n, k] = [0, 1, 2].map(|i| self.numbers[i]);
                let encoded = encode_call(p, n, k, points, message, output);
                self.returning(encoded.refusal, &[], vec![encoded.output])
            }
            ("check", [points, word, curve]) => {
                let checked = check_call(&self.parameters(), points, word, curve);
                self.returning(checked.refusal, &[checked.yes.into()], vec![])
            }
            (_, []) => self.field_reply(),
            (_, runs) => self.curve_reply(runs, way),
        }
    }

    fn field_reply(&self) -> Reply {
        let p = self.numbers[0];
        let symbols: Vec<u64> = self.symbols.iter().map(|&a| a.into()).collect();
        let answer = match (self.form.name, &symbols[..]) {
            ("sum", &[a, b]) => sum_call(p, a, b),
            ("difference", &[a, b]) => difference_call(p, a, b),
            ("product", &[a, b]) => product_call(p, a, b),
            (_, symbols) => inverse_call(p, symbols[0]),
        };
        self.returning(answer.refusal, &[answer.symbol as usize], vec![])
    }

    /// Finding, listing and reading.
    fn curve_reply(&self, runs: &[Vec<u16>], way: Option<Way>) -> Reply {
        let (parameters, points, word) = (self.parameters(), &runs[0], &runs[1]);
        match (self.form.name, &runs[2..]) {
            ("find", [curve, work]) => {
                let o = find_call(&parameters, points, word, Lent { output: &[], curve, work });
                self.counting(&o, [&o.curve, &o.work])
            }
            ("list", [proposed, output, work]) => {
                let lent = Lent { output, curve: &[], work };
                let o = list_call(&parameters, points, word, proposed, lent, way);
                self.counting(&o, [&o.output, &o.work])
            }
            (_, buffers) => {
                let lent = Lent { output: &buffers[0], curve: &buffers[1], work: &buffers[2] };
                let o = read_call(&parameters, points, word, lent, way);
                self.counting(&o, [&o.output, &o.curve, &o.work])
            }
        }
    }

    fn parameters(&self) -> Parameters {
        let [p, n, k, s, tau] = [0, 1, 2, 3, 4].map(|i| self.numbers[i]);
        Parameters { p, n, k, s, tau }
    }

    fn counting<const N: usize>(&self, outcome: &Outcome, lent: [&Vec<u16>; N]) -> Reply {
        self.returning(outcome.refusal, &[outcome.found, outcome.tried], lent.map(Vec::clone).to_vec())
    }

    /// The results go to the front of the answer, as many as it holds.
    fn returning(&self, returned: u64, results: &[usize], lent: Vec<Vec<u16>>) -> Reply {
        let mut answer = self.answer.clone();
        for (place, &result) in answer.iter_mut().zip(results) {
            *place = result as u64;
        }
        Reply { returned, answer, lent }
    }
}

/// A run as it is read; one number repeated is written short.
fn run<T: PartialEq + fmt::Display>(numbers: &[T]) -> String {
    match numbers {
        [first, _, _, ..] if numbers.iter().all(|number| number == first) => format!("{}={first}", numbers.len()),
        _ => line(numbers).trim_end().to_string(),
    }
}

impl fmt::Display for Request {
    fn fmt(&self, f: &mut fmt::Formatter) -> fmt::Result {
        f.write_str(self.form.name)?;
        self.numbers.iter().try_for_each(|number| write!(f, " {number}"))?;
        self.symbols.iter().try_for_each(|symbol| write!(f, " {symbol}"))?;
        self.runs.iter().try_for_each(|numbers| write!(f, " {}", run(numbers)))?;
        if self.form.results > 0 {
            write!(f, " {}", run(&self.answer))?;
        }
        Ok(())
    }
}

impl fmt::Display for Reply {
    /// The number returned and the answer's numbers, then a line for each lent run, and an empty line.
    fn fmt(&self, f: &mut fmt::Formatter) -> fmt::Result {
        write!(f, "{}", self.returned)?;
        self.answer.iter().try_for_each(|number| write!(f, " {number}"))?;
        writeln!(f)?;
        self.lent.iter().try_for_each(|numbers| f.write_str(&line(numbers)))?;
        writeln!(f)
    }
}

/// The replies to calls that stand one to a line.
pub fn batch(calls: &str, way: Option<Way>) -> Result<String, String> {
    let mut replies = String::new();
    for (number, text) in (1..).zip(calls.lines()) {
        let request = Request::parse(text).map_err(|cause| format!("call {number}: {cause}"))?;
        replies += &request.reply(way).to_string();
    }
    Ok(replies)
}
