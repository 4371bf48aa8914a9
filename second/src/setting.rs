//! "The setting": the ranges, the derived numbers, refusals 1 to 4.

use crate::field::is_modulus;

/// An accepted setting and its derived numbers, in document 01's letters.
#[derive(Clone, Debug, PartialEq, Eq)]
pub struct Setting {
    pub p: u32,
    pub n: usize,
    pub k: usize,
    pub s: usize,
    pub tau: usize,
    pub w: usize,
    pub l: usize,
    pub c: usize,
    pub u: usize,
    pub r: usize,
}

/// "n is 2 to 64, k is 2 to n"
pub fn code_in_range(n: u64, k: u64) -> bool {
    (2..=64).contains(&n) && (2..=n).contains(&k)
}

/// Refusals 1 and 2 of a call without s and τ.
pub fn code_refusal(p: u64, n: u64, k: u64) -> u64 {
    if !is_modulus(p) {
        1
    } else if !code_in_range(n, k) {
        2
    } else {
        0
    }
}

impl Setting {
    /// The setting, or the lowest of the refusals 1 to 4 that applies.
    pub fn accept(p: u64, n: u64, k: u64, s: u64, tau: u64) -> Result<Setting, u64> {
        match code_refusal(p, n, k) {
            0 => {}
            number => return Err(number),
        }
        // "s is 1 to 4, τ is 0 to n−1"
        if !(1..=4).contains(&s) || tau >= n {
            return Err(2);
        }
        // From here on every number is at most 929 and each sum below fits easily.
        let setting = Setting::derive(p as u32, n as usize, k as usize, s as usize, tau as usize);
        if setting.u <= setting.c {
            Err(3)
        } else if setting.l > 24 {
            Err(4)
        } else {
            Ok(setting)
        }
    }

    /// The derived numbers of parameters in their ranges.
    fn derive(p: u32, n: usize, k: usize, s: usize, tau: usize) -> Setting {
        let w = s * (n - tau);
        let l = (w - 1) / (k - 1);
        let c = n * s * (s + 1) / 2;
        let u = (0..=l).map(|t| w - t * (k - 1)).sum();
        let r = (l + k + 4) * (l + 1) * w;
        Setting { p, n, k, s, tau, w, l, c, u, r }
    }

    /// "exactly (ℓ+1)·W numbers": the length of a curve.
    pub fn curve_length(&self) -> usize {
        (self.l + 1) * self.w
    }

    /// The agreements that a listed message needs.
    pub fn needed(&self) -> usize {
        self.n - self.tau
    }
}
