//! "Field and code": arithmetic modulo a prime from 2 to 929.

use crate::Symbol;

/// "p is a prime from 2 to 929": no number from 2 to p−1 divides it.
pub fn is_modulus(p: u64) -> bool {
    (2..=929).contains(&p) && (2..p).all(|d| p % d != 0)
}

pub fn sum(p: u32, a: Symbol, b: Symbol) -> Symbol {
    (a + b) % p
}

pub fn difference(p: u32, a: Symbol, b: Symbol) -> Symbol {
    (a + p - b) % p
}

pub fn product(p: u32, a: Symbol, b: Symbol) -> Symbol {
    a * b % p
}

/// "The one symbol b for which a·b leaves 1", by trying each; "the inverse of 0 is given as 0".
pub fn inverse(p: u32, a: Symbol) -> Symbol {
    (0..p).find(|&b| product(p, a, b) == 1).unwrap_or(0)
}

/// The inverse of every symbol, each found by trying.
pub fn inverses(p: u32) -> Vec<Symbol> {
    (0..p).map(|a| inverse(p, a)).collect()
}

/// 1, a, a², .. : the first `count` powers. "A power with exponent 0 is 1."
pub fn powers(p: u32, a: Symbol, count: usize) -> Vec<Symbol> {
    let mut all = vec![1; count];
    for e in 1..count {
        all[e] = product(p, all[e - 1], a);
    }
    all
}

/// binomial(i, a) modulo p for i below `rows` and a below `columns`, by Pascal's rule.
pub fn binomials(p: u32, rows: usize, columns: usize) -> Vec<Vec<Symbol>> {
    let mut all = vec![vec![0; columns]; rows];
    for i in 0..rows {
        for a in 0..columns {
            all[i][a] = match (i, a) {
                (_, 0) => 1,
                (0, _) => 0,
                _ => sum(p, all[i - 1][a - 1], all[i - 1][a]),
            };
        }
    }
    all
}
