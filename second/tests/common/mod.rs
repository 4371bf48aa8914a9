//! Shared by the tests.
#![allow(dead_code)] // each test file takes only some of these

use second::calls::{Lent, Parameters};
use second::random::Random;
use second::setting::Setting;
use second::Symbol;

pub fn parameters(p: u64, n: u64, k: u64, s: u64, tau: u64) -> Parameters {
    Parameters { p, n, k, s, tau }
}

pub fn accepted(p: u64, n: u64, k: u64, s: u64, tau: u64) -> Setting {
    Setting::accept(p, n, k, s, tau).expect("an accepted setting")
}

pub fn refusal(p: u64, n: u64, k: u64, s: u64, tau: u64) -> u64 {
    Setting::accept(p, n, k, s, tau).err().unwrap_or(0)
}

/// "Seven": p = 7, points 0 to 6, k = 2, word 0 0 0 0 4 5 6.
pub const POINTS: [u16; 7] = [0, 1, 2, 3, 4, 5, 6];
pub const WORD: [u16; 7] = [0, 0, 0, 0, 4, 5, 6];

pub fn seven(s: u64, tau: u64) -> Parameters {
    parameters(7, 7, 2, s, tau)
}

/// Buffers that hold 9, 8 and 7 everywhere.
pub struct Buffers {
    pub output: Vec<u16>,
    pub curve: Vec<u16>,
    pub work: Vec<u16>,
}

impl Buffers {
    pub fn new(output: usize, curve: usize, work: usize) -> Buffers {
        Buffers { output: vec![9; output], curve: vec![8; curve], work: vec![7; work] }
    }

    /// The room that the setting needs and so many places more.
    pub fn for_setting(setting: &Setting, more: usize) -> Buffers {
        Buffers::new(setting.l * setting.k + more, setting.curve_length() + more, setting.r + more)
    }

    pub fn lent(&self) -> Lent<'_> {
        Lent { output: &self.output, curve: &self.curve, work: &self.work }
    }
}

/// A curve of this setting from its terms (i, t, coefficient).
pub fn curve(setting: &Setting, terms: &[(usize, usize, Symbol)]) -> Vec<Symbol> {
    let mut curve = vec![0; setting.curve_length()];
    for &(i, t, c) in terms {
        curve[t * setting.w + i] = c;
    }
    curve
}

pub fn narrow(symbols: &[Symbol]) -> Vec<u16> {
    symbols.iter().map(|&a| a as u16).collect()
}

pub fn symbols(random: &mut Random, p: u32, count: usize) -> Vec<Symbol> {
    (0..count).map(|_| random.below(p as u64) as Symbol).collect()
}

/// A random accepted setting with p at least n, and distinct points for it.
pub fn small_setting(random: &mut Random, moduli: &[u64], most: u64) -> (Setting, Vec<Symbol>) {
    loop {
        let p = random.pick(moduli);
        let n = random.between(2, p.min(most));
        let (k, s, tau) = (random.between(2, n.min(4)), random.between(1, 4), random.below(n));
        if let Ok(setting) = Setting::accept(p, n, k, s, tau) {
            let mut points: Vec<Symbol> = (0..setting.p).collect();
            random.shuffle(&mut points);
            points.truncate(setting.n);
            return (setting, points);
        }
    }
}

/// Symbols of two patches mixed, and some of them replaced.
pub fn some_word(random: &mut Random, setting: &Setting, points: &[Symbol]) -> Vec<Symbol> {
    let one = second::code::patch(setting.p, points, &symbols(random, setting.p, setting.k));
    let other = second::code::patch(setting.p, points, &symbols(random, setting.p, setting.k));
    let wrong = random.below(4);
    (0..setting.n)
        .map(|j| match random.below(6) {
            0 if wrong > 0 => random.below(setting.p as u64) as Symbol,
            1 | 2 => other[j],
            _ => one[j],
        })
        .collect()
}
