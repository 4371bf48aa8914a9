//! The messages that agree with a word in at least n−τ places, found in three ways.

use std::collections::BTreeSet;

use crate::code::agreement;
use crate::curve::least;
use crate::field::{difference, inverses, product, sum};
use crate::search::{is_root, roots, rows};
use crate::setting::Setting;
use crate::Symbol;

/// How the list is found. The first two follow from the definition alone; the third needs the theorem under test.
#[derive(Clone, Copy, Debug, PartialEq, Eq)]
pub enum Way {
    /// Every message of k symbols is tried.
    All,
    /// A message with n−τ agreements agrees in k of any τ+k places: each choice of k of the first τ+k is interpolated.
    Subsets,
    /// The roots of the least curve, by the search.
    Curve,
}

/// As many messages or choices of places as may be tried one by one.
const AFFORDABLE: u64 = 200_000;

impl Way {
    /// The cheaper of the two ways by definition; the curve when neither is affordable.
    pub fn cheapest(setting: &Setting) -> Way {
        let all = messages_count(setting.p, setting.k);
        let subsets = choices(setting.tau + setting.k, setting.k);
        if all.min(subsets) > AFFORDABLE {
            Way::Curve
        } else if all <= subsets {
            Way::All
        } else {
            Way::Subsets
        }
    }

    pub fn from_name(name: &str) -> Option<Way> {
        match name {
            "all" => Some(Way::All),
            "subsets" => Some(Way::Subsets),
            "curve" => Some(Way::Curve),
            _ => None,
        }
    }
}

/// p^k, or the largest number when it is more.
pub fn messages_count(p: u32, k: usize) -> u64 {
    (0..k).fold(1u64, |count, _| count.saturating_mul(p as u64))
}

/// The choices of k among n, or the largest number when there are more.
pub fn choices(n: usize, k: usize) -> u64 {
    (1..=k).fold(1u64, |count, j| match count.checked_mul((n - k + j) as u64) {
        Some(more) => more / j as u64,
        None => u64::MAX,
    })
}

/// "smaller constant term first, then smaller coefficient of x, and so on", each message once.
pub fn readings(setting: &Setting, points: &[Symbol], word: &[Symbol], way: Way) -> Vec<Vec<Symbol>> {
    match way {
        Way::All => by_all(setting, points, word),
        Way::Subsets => by_subsets(setting, points, word),
        Way::Curve => by_curve(setting, points, word),
    }
}

fn enough(setting: &Setting, points: &[Symbol], word: &[Symbol], message: &[Symbol]) -> bool {
    agreement(setting.p, points, word, message) >= setting.needed()
}

fn by_all(setting: &Setting, points: &[Symbol], word: &[Symbol]) -> Vec<Vec<Symbol>> {
    let mut list = Vec::new();
    let mut message = vec![0; setting.k];
    loop {
        if enough(setting, points, word, &message) {
            list.push(message.clone());
        }
        if !advance(setting.p, &mut message) {
            return list;
        }
    }
}

/// The next message in order; no when the last one stood there.
pub fn advance(p: u32, message: &mut [Symbol]) -> bool {
    for c in message.iter_mut().rev() {
        *c += 1;
        if *c < p {
            return true;
        }
        *c = 0;
    }
    false
}

fn by_curve(setting: &Setting, points: &[Symbol], word: &[Symbol]) -> Vec<Vec<Symbol>> {
    listed(setting, points, word, &least(setting, points, word), Way::Curve)
}

/// "those messages whose polynomial f has Q(x, f(x)) = 0 and agrees with the word in at least n−τ places"
pub fn listed(setting: &Setting, points: &[Symbol], word: &[Symbol], curve: &[Symbol], way: Way) -> Vec<Vec<Symbol>> {
    let curve = rows(setting, curve);
    if way == Way::Curve {
        let roots = roots(setting.p, setting.k, &curve).into_iter();
        roots.filter(|f| enough(setting, points, word, f)).collect()
    } else {
        let readings = readings(setting, points, word, way).into_iter();
        readings.filter(|f| is_root(setting.p, &curve, f)).collect()
    }
}

fn by_subsets(setting: &Setting, points: &[Symbol], word: &[Symbol]) -> Vec<Vec<Symbol>> {
    let mut choice = Choice { setting, points, word, inverses: inverses(setting.p), list: BTreeSet::new() };
    choice.extend(0, setting.k, vec![0; setting.k], vec![1]);
    choice.list.into_iter().collect()
}

/// The choices of places so far tried, and the messages they gave.
struct Choice<'a> {
    setting: &'a Setting,
    points: &'a [Symbol],
    word: &'a [Symbol],
    inverses: Vec<Symbol>,
    list: BTreeSet<Vec<Symbol>>,
}

impl Choice<'_> {
    /// `message` runs through the places chosen, all below `from`; `vanishing` is the product of their x − α.
    fn extend(&mut self, from: usize, left: usize, message: Vec<Symbol>, vanishing: Vec<Symbol>) {
        if left == 0 {
            if self.enough(&message) {
                self.list.insert(message);
            }
            return;
        }
        for place in from..=self.setting.tau + self.setting.k - left {
            let (message, vanishing) = self.through(place, &message, &vanishing);
            self.extend(place + 1, left - 1, message, vanishing);
        }
    }

    /// Newton's step: one more place is met, those before stay met.
    fn through(&self, place: usize, message: &[Symbol], vanishing: &[Symbol]) -> (Vec<Symbol>, Vec<Symbol>) {
        let (p, x) = (self.setting.p, self.points[place]);
        let missing = difference(p, self.word[place], horner(p, message, x));
        let factor = product(p, missing, self.inverses[horner(p, vanishing, x) as usize]);
        let mut met = message.to_vec();
        for (c, &v) in met.iter_mut().zip(vanishing) {
            *c = sum(p, *c, product(p, factor, v));
        }
        let mut next = vec![0; vanishing.len() + 1];
        for (i, &v) in vanishing.iter().enumerate() {
            next[i] = difference(p, next[i], product(p, x, v));
            next[i + 1] = sum(p, next[i + 1], v);
        }
        (met, next)
    }

    /// At least n−τ agreements: not more than τ places differ.
    fn enough(&self, message: &[Symbol]) -> bool {
        let mut differ = 0;
        for (&x, &r) in self.points.iter().zip(self.word) {
            if horner(self.setting.p, message, x) != r {
                differ += 1;
                if differ > self.setting.tau {
                    return false;
                }
            }
        }
        true
    }
}

/// The value without a list of powers: this way evaluates often.
fn horner(p: u32, message: &[Symbol], x: Symbol) -> Symbol {
    message.iter().rev().fold(0, |v, &c| (v * x + c) % p)
}
