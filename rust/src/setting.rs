//! An accepted setting, and the calls under it. They allocate the room that they need.

use crate::raw::{self, Parameters};
use crate::refusal::{Refusal, Taus};

/// The numbers that follow from p, n, k, s and τ.
#[derive(Clone, Copy, Debug, PartialEq, Eq, Hash)]
pub struct Derived {
    /// The degree bound W.
    pub w: usize,
    /// The highest power of y, and the longest list: ℓ.
    pub l: usize,
    /// The number of conditions C.
    pub c: usize,
    /// The number of coefficients U.
    pub u: usize,
    /// The work room R.
    pub r: usize,
}

/// A setting that is accepted: U > C and ℓ ≤ 24.
#[derive(Clone, Copy, Debug, PartialEq, Eq, Hash)]
pub struct Setting {
    parameters: Parameters,
    derived: Derived,
}

/// Every message that agrees with the word in at least n−τ places, smaller constant term first.
#[derive(Clone, Debug, PartialEq, Eq, Hash)]
pub struct Reading {
    /// Each has k symbols, constant term first.
    pub messages: Vec<Vec<u16>>,
    /// The beginnings that the search tried, the empty one counted.
    pub beginnings: usize,
}

impl Setting {
    /// Refusals 1 to 4; 3 and 4 say which τ are accepted.
    pub fn new(p: usize, n: usize, k: usize, s: usize, tau: usize) -> Result<Setting, Refusal> {
        Setting::ask(p, n, k, s, tau).map_err(|refusal| match refusal {
            Refusal::TooFewTerms(_) => Refusal::TooFewTerms(taus(p, n, k, s)),
            Refusal::ListTooLong(_) => Refusal::ListTooLong(taus(p, n, k, s)),
            other => other,
        })
    }

    /// The setting with the largest τ that is accepted. Refusals 1, 2; 4 where no τ is.
    pub fn largest(p: usize, n: usize, k: usize, s: usize) -> Result<Setting, Refusal> {
        accepted(p, n, k, s).next_back().map_or_else(|| Setting::new(p, n, k, s, 0), Ok)
    }

    fn ask(p: usize, n: usize, k: usize, s: usize, tau: usize) -> Result<Setting, Refusal> {
        let parameters = Parameters { p, n, k, s, tau };
        let mut answer = [0; 5];
        Refusal::test(raw::setting(parameters, &mut answer))?;
        let [w, l, c, u, r] = answer;
        Ok(Setting { parameters, derived: Derived { w, l, c, u, r } })
    }

    pub fn parameters(&self) -> Parameters {
        self.parameters
    }

    pub fn derived(&self) -> Derived {
        self.derived
    }

    /// The numbers that the output of list and read must hold.
    pub fn output_room(&self) -> usize {
        self.derived.l * self.parameters.k
    }

    /// The length of a curve.
    pub fn curve_room(&self) -> usize {
        (self.derived.l + 1) * self.derived.w
    }

    /// The numbers of work that find, list and read take.
    pub fn work_room(&self) -> usize {
        self.derived.r
    }

    /// The patch of a message. Refusals 5, 6, 7.
    pub fn encode(&self, points: &[u16], message: &[u16]) -> Result<Vec<u16>, Refusal> {
        let Parameters { p, n, k, .. } = self.parameters;
        encode(p, n, k, points, message)
    }

    /// Whether a proposed curve passes for the word. Refusals 5, 6, 7.
    pub fn check(&self, points: &[u16], word: &[u16], curve: &[u16]) -> Result<bool, Refusal> {
        let mut answer = [0];
        Refusal::test(raw::check(self.parameters, points, word, curve, &mut answer))?;
        Ok(answer == [1])
    }

    /// A curve that passes for the word. Refusals 5, 6, 7.
    pub fn find(&self, points: &[u16], word: &[u16]) -> Result<Vec<u16>, Refusal> {
        let (mut curve, mut work) = (vec![0; self.curve_room()], vec![0; self.work_room()]);
        Refusal::test(raw::find(self.parameters, points, word, &mut curve, &mut work))?;
        Ok(curve)
    }

    /// The readings of the word, from a curve that is proposed. Refusals 5, 6, 7, 9.
    pub fn list(&self, points: &[u16], word: &[u16], curve: &[u16]) -> Result<Reading, Refusal> {
        let (mut output, mut work) = (vec![0; self.output_room()], vec![0; self.work_room()]);
        let mut answer = [0; 2];
        Refusal::test(raw::list(self.parameters, points, word, curve, &mut output, &mut work, &mut answer))?;
        Ok(self.reading(&output, answer))
    }

    /// The readings of the word. Refusals 5, 6, 7.
    pub fn read(&self, points: &[u16], word: &[u16]) -> Result<Reading, Refusal> {
        let (mut output, mut curve) = (vec![0; self.output_room()], vec![0; self.curve_room()]);
        let (mut work, mut answer) = (vec![0; self.work_room()], [0; 2]);
        let number = raw::read(self.parameters, points, word, &mut output, &mut curve, &mut work, &mut answer);
        Refusal::test(number)?;
        Ok(self.reading(&output, answer))
    }

    fn reading(&self, output: &[u16], [found, beginnings]: [usize; 2]) -> Reading {
        let messages = output.chunks(self.parameters.k).take(found).map(<[u16]>::to_vec).collect();
        Reading { messages, beginnings }
    }
}

/// The settings that are accepted, τ rising. An n above 64 is refused whatever τ is.
fn accepted(p: usize, n: usize, k: usize, s: usize) -> impl DoubleEndedIterator<Item = Setting> {
    (0..n.min(64)).filter_map(move |tau| Setting::ask(p, n, k, s, tau).ok())
}

fn taus(p: usize, n: usize, k: usize, s: usize) -> Taus {
    let mut tau = accepted(p, n, k, s).map(|setting| setting.parameters.tau);
    match (tau.next(), tau.next_back()) {
        (Some(first), last) => Taus::Between(first, last.unwrap_or(first)),
        (None, _) => Taus::None,
    }
}

/// The patch of a message: its polynomial's values at the n points. Needs no s and no τ. Refusals 1, 2, 5, 6, 7.
pub fn encode(p: usize, n: usize, k: usize, points: &[u16], message: &[u16]) -> Result<Vec<u16>, Refusal> {
    // An n outside its range is refused before the room is looked at, so no more than 64 is ever needed.
    let mut output = vec![0; n.min(64)];
    Refusal::test(raw::encode(p, n, k, points, message, &mut output))?;
    Ok(output)
}
