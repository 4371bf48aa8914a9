//! "Field and code": a message's values, its patch, and where it agrees with a word.

use crate::field::{powers, product, sum};
use crate::Symbol;

/// The value at x of the polynomial whose coefficients stand constant term first.
pub fn value(p: u32, message: &[Symbol], x: Symbol) -> Symbol {
    let terms = powers(p, x, message.len());
    message.iter().zip(terms).fold(0, |v, (&c, power)| sum(p, v, product(p, c, power)))
}

/// "Its patch is its polynomial's values at n distinct points."
pub fn patch(p: u32, points: &[Symbol], message: &[Symbol]) -> Vec<Symbol> {
    points.iter().map(|&x| value(p, message, x)).collect()
}

/// In how many places the message's patch and the word are the same.
pub fn agreement(p: u32, points: &[Symbol], word: &[Symbol], message: &[Symbol]) -> usize {
    patch(p, points, message).iter().zip(word).filter(|(a, b)| a == b).count()
}
