//! The public calls: each a function from its arguments to its outcome, every lent buffer included.
//! "Tested in this order; the lowest that applies is given, and never without its cause."

use crate::code::patch;
use crate::curve::{least, passes};
use crate::field::{difference, inverse, is_modulus, product, sum};
use crate::readings::{listed, Way};
use crate::search::{beginnings, rows};
use crate::setting::{code_refusal, Setting};
use crate::Symbol;

/// p, n, k, s, τ as a call takes them: of any size.
#[derive(Clone, Copy, Debug, PartialEq, Eq)]
pub struct Parameters {
    pub p: u64,
    pub n: u64,
    pub k: u64,
    pub s: u64,
    pub tau: u64,
}

impl Parameters {
    pub fn accept(&self) -> Result<Setting, u64> {
        Setting::accept(self.p, self.n, self.k, self.s, self.tau)
    }
}

/// A field call's refusal and symbol: "field calls refuse (1, then 6) and return 0".
#[derive(Clone, Debug, PartialEq, Eq)]
pub struct Answer {
    pub refusal: u64,
    pub symbol: u64,
}

fn answer(p: u64, symbols: &[u64], symbol: impl Fn(u32) -> Symbol) -> Answer {
    if !is_modulus(p) {
        Answer { refusal: 1, symbol: 0 }
    } else if symbols.iter().any(|&a| a >= p) {
        Answer { refusal: 6, symbol: 0 }
    } else {
        Answer { refusal: 0, symbol: symbol(p as u32) as u64 }
    }
}

pub fn sum_call(p: u64, a: u64, b: u64) -> Answer {
    answer(p, &[a, b], |p| sum(p, a as Symbol, b as Symbol))
}

pub fn difference_call(p: u64, a: u64, b: u64) -> Answer {
    answer(p, &[a, b], |p| difference(p, a as Symbol, b as Symbol))
}

pub fn product_call(p: u64, a: u64, b: u64) -> Answer {
    answer(p, &[a, b], |p| product(p, a as Symbol, b as Symbol))
}

pub fn inverse_call(p: u64, a: u64) -> Answer {
    answer(p, &[a], |p| inverse(p, a as Symbol))
}

/// The setting call's outcome; refused, "every derived number 0".
#[derive(Clone, Debug, Default, PartialEq, Eq)]
pub struct Derived {
    pub refusal: u64,
    pub w: usize,
    pub l: usize,
    pub c: usize,
    pub u: usize,
    pub r: usize,
}

pub fn setting_call(parameters: &Parameters) -> Derived {
    match parameters.accept() {
        Ok(s) => Derived { refusal: 0, w: s.w, l: s.l, c: s.c, u: s.u, r: s.r },
        Err(refusal) => Derived { refusal, ..Derived::default() },
    }
}

#[derive(Clone, Debug, PartialEq, Eq)]
pub struct Encoded {
    pub refusal: u64,
    pub output: Vec<u16>,
}

pub fn encode_call(p: u64, n: u64, k: u64, points: &[u16], message: &[u16], output: &[u16]) -> Encoded {
    let refusal = encode_refusal(p, n, k, points, message, output.len());
    if refusal != 0 {
        return Encoded { refusal, output: output.to_vec() };
    }
    let patch = patch(p as u32, &symbols(points), &symbols(message));
    Encoded { refusal, output: written(&patch, output) }
}

fn encode_refusal(p: u64, n: u64, k: u64, points: &[u16], message: &[u16], output: usize) -> u64 {
    let number = code_refusal(p, n, k);
    if number != 0 {
        number
    } else if points.len() as u64 != n || message.len() as u64 != k {
        5
    } else if !below(p, points) || !below(p, message) {
        6
    } else if equal_points(points) {
        7
    } else if (output as u64) < n {
        8
    } else {
        0
    }
}

#[derive(Clone, Debug, PartialEq, Eq)]
pub struct Checked {
    pub refusal: u64,
    pub yes: bool,
}

pub fn check_call(parameters: &Parameters, points: &[u16], word: &[u16], curve: &[u16]) -> Checked {
    match accept(parameters, points, word, Some(curve), Room::NONE) {
        Err(refusal) => Checked { refusal, yes: false },
        Ok(setting) => Checked { refusal: 0, yes: passes(&setting, &symbols(points), &symbols(word), &symbols(curve)) },
    }
}

/// What finding, listing and reading give; a buffer that the call does not take is empty.
#[derive(Clone, Debug, PartialEq, Eq)]
pub struct Outcome {
    pub refusal: u64,
    pub found: usize,
    pub tried: usize,
    pub output: Vec<u16>,
    pub curve: Vec<u16>,
    pub work: Vec<u16>,
}

/// What is lent to a call.
#[derive(Clone, Copy)]
pub struct Lent<'a> {
    pub output: &'a [u16],
    pub curve: &'a [u16],
    pub work: &'a [u16],
}

impl Lent<'_> {
    /// "A refused call returns its number, list length 0, beginnings 0, and each buffer holds what it held."
    fn held(&self, refusal: u64) -> Outcome {
        let (output, curve, work) = (self.output.to_vec(), self.curve.to_vec(), self.work.to_vec());
        Outcome { refusal, found: 0, tried: 0, output, curve, work }
    }

    /// "the first R numbers of work are zero, the rest untouched"
    fn accepted(&self, setting: &Setting) -> Outcome {
        Outcome { work: written(&vec![0; setting.r], self.work), ..self.held(0) }
    }
}

/// The lent output is not taken: give it empty.
pub fn find_call(parameters: &Parameters, points: &[u16], word: &[u16], lent: Lent) -> Outcome {
    let room = Room { output: None, curve: Some(lent.curve.len()), work: Some(lent.work.len()) };
    match accept(parameters, points, word, None, room) {
        Err(refusal) => lent.held(refusal),
        Ok(setting) => {
            let curve = least(&setting, &symbols(points), &symbols(word));
            Outcome { curve: written(&curve, lent.curve), ..lent.accepted(&setting) }
        }
    }
}

/// The lent curve buffer is not taken: give it empty.
pub fn list_call(
    parameters: &Parameters,
    points: &[u16],
    word: &[u16],
    curve: &[u16],
    lent: Lent,
    way: Option<Way>,
) -> Outcome {
    let room = Room { output: Some(lent.output.len()), curve: None, work: Some(lent.work.len()) };
    match accept(parameters, points, word, Some(curve), room) {
        Err(refusal) => lent.held(refusal),
        Ok(setting) => {
            let (points, word, curve) = (symbols(points), symbols(word), symbols(curve));
            if !passes(&setting, &points, &word, &curve) {
                return lent.held(9);
            }
            list_from(&setting, &points, &word, &curve, lent, way)
        }
    }
}

/// "reading (finding, then listing)"
pub fn read_call(parameters: &Parameters, points: &[u16], word: &[u16], lent: Lent, way: Option<Way>) -> Outcome {
    let room = Room { output: Some(lent.output.len()), curve: Some(lent.curve.len()), work: Some(lent.work.len()) };
    match accept(parameters, points, word, None, room) {
        Err(refusal) => lent.held(refusal),
        Ok(setting) => {
            let (points, word) = (symbols(points), symbols(word));
            let curve = least(&setting, &points, &word);
            let listing = list_from(&setting, &points, &word, &curve, lent, way);
            Outcome { curve: written(&curve, lent.curve), ..listing }
        }
    }
}

fn list_from(
    setting: &Setting,
    points: &[Symbol],
    word: &[Symbol],
    curve: &[Symbol],
    lent: Lent,
    way: Option<Way>,
) -> Outcome {
    let way = way.unwrap_or_else(|| Way::cheapest(setting));
    let messages = listed(setting, points, word, curve, way);
    Outcome {
        found: messages.len(),
        tried: beginnings(setting.p, setting.k, &rows(setting, curve)),
        output: written(&messages.concat(), lent.output),
        ..lent.accepted(setting)
    }
}

/// The lengths of what is lent, for refusal 8; none where the call does not take it.
struct Room {
    output: Option<usize>,
    curve: Option<usize>,
    work: Option<usize>,
}

impl Room {
    const NONE: Room = Room { output: None, curve: None, work: None };

    /// "output under ℓ·k, curve buffer under (ℓ+1)·W, or work under R"
    fn too_small(&self, setting: &Setting) -> bool {
        let under = |room: Option<usize>, least: usize| room.is_some_and(|length| length < least);
        under(self.output, setting.l * setting.k)
            || under(self.curve, setting.curve_length())
            || under(self.work, setting.r)
    }
}

/// Refusals 1 to 8 of the calls that take a word; `curve` is the proposed one where there is one.
fn accept(
    parameters: &Parameters,
    points: &[u16],
    word: &[u16],
    curve: Option<&[u16]>,
    room: Room,
) -> Result<Setting, u64> {
    let setting = parameters.accept()?;
    let (p, n) = (parameters.p, setting.n);
    if points.len() != n || word.len() != n || curve.is_some_and(|q| q.len() != setting.curve_length()) {
        Err(5)
    } else if !below(p, points) || !below(p, word) || curve.is_some_and(|q| !below(p, q)) {
        Err(6)
    } else if equal_points(points) {
        Err(7)
    } else if room.too_small(&setting) {
        Err(8)
    } else {
        Ok(setting)
    }
}

/// Each symbol is below p.
pub fn below(p: u64, numbers: &[u16]) -> bool {
    numbers.iter().all(|&a| (a as u64) < p)
}

/// "two equal points"
pub fn equal_points(points: &[u16]) -> bool {
    (0..points.len()).any(|i| points[i + 1..].contains(&points[i]))
}

/// 16-bit numbers as symbols.
pub fn symbols(numbers: &[u16]) -> Vec<Symbol> {
    numbers.iter().map(|&a| a as Symbol).collect()
}

/// A buffer with its first places written and the rest untouched.
fn written(new: &[Symbol], buffer: &[u16]) -> Vec<u16> {
    new.iter().map(|&a| a as u16).chain(buffer.iter().skip(new.len()).copied()).collect()
}
