//! Arithmetic modulo p. Each call is refused where p is no modulus (1) or a symbol is not below p (6).

use crate::raw;
use crate::refusal::Refusal;

pub use crate::raw::is_modulus;

pub fn sum(p: usize, a: u16, b: u16) -> Result<u16, Refusal> {
    symbol(|answer| raw::sum(p, a, b, answer))
}

pub fn difference(p: usize, a: u16, b: u16) -> Result<u16, Refusal> {
    symbol(|answer| raw::difference(p, a, b, answer))
}

pub fn product(p: usize, a: u16, b: u16) -> Result<u16, Refusal> {
    symbol(|answer| raw::product(p, a, b, answer))
}

/// The inverse of 0 is given as 0.
pub fn inverse(p: usize, a: u16) -> Result<u16, Refusal> {
    symbol(|answer| raw::inverse(p, a, answer))
}

fn symbol(call: impl FnOnce(&mut [usize]) -> u16) -> Result<u16, Refusal> {
    let mut answer = [0];
    Refusal::test(call(&mut answer))?;
    Ok(u16::try_from(answer[0]).expect("a symbol is below p"))
}
