//! Why a call was refused.

use std::error::Error;
use std::fmt;

/// The τ that are accepted with the p, n, k and s of a setting.
#[derive(Clone, Copy, Debug, PartialEq, Eq, PartialOrd, Ord, Hash)]
pub enum Taus {
    /// Not asked for: a raw call's number does not tell.
    Unknown,
    /// There is none.
    None,
    /// From the first to the last.
    Between(usize, usize),
}

/// The causes in the order in which they are tested: a call gives the first that applies.
#[derive(Clone, Copy, Debug, PartialEq, Eq, PartialOrd, Ord, Hash)]
#[non_exhaustive]
pub enum Refusal {
    NoModulus,
    OutOfRange,
    /// τ is too large.
    TooFewTerms(Taus),
    /// τ is too small.
    ListTooLong(Taus),
    WrongLength,
    NoSymbol,
    EqualPoints,
    TooLittleRoom,
    CurveFails,
}

impl Refusal {
    /// In the order of their numbers, which are from 1 on.
    pub const ALL: [Refusal; 9] = [
        Refusal::NoModulus,
        Refusal::OutOfRange,
        Refusal::TooFewTerms(Taus::Unknown),
        Refusal::ListTooLong(Taus::Unknown),
        Refusal::WrongLength,
        Refusal::NoSymbol,
        Refusal::EqualPoints,
        Refusal::TooLittleRoom,
        Refusal::CurveFails,
    ];

    /// The refusal number.
    pub fn number(self) -> u16 {
        match self {
            Refusal::NoModulus => 1,
            Refusal::OutOfRange => 2,
            Refusal::TooFewTerms(_) => 3,
            Refusal::ListTooLong(_) => 4,
            Refusal::WrongLength => 5,
            Refusal::NoSymbol => 6,
            Refusal::EqualPoints => 7,
            Refusal::TooLittleRoom => 8,
            Refusal::CurveFails => 9,
        }
    }

    /// What a call's number says: 0 is acceptance.
    pub fn test(number: u16) -> Result<(), Refusal> {
        match number {
            0 => Ok(()),
            _ => Err(Refusal::ALL.into_iter().find(|r| r.number() == number).expect("calls refuse with 1 to 9")),
        }
    }

    /// The cause, in the words of the table of refusals.
    pub fn why(self) -> &'static str {
        match self {
            Refusal::NoModulus => "p is not a prime from 2 to 929",
            Refusal::OutOfRange => "n, k, s or τ is outside its range",
            Refusal::TooFewTerms(_) => "U ≤ C: τ is too large",
            Refusal::ListTooLong(_) => "ℓ > 24: τ is too small",
            Refusal::WrongLength => "points or word not n long, message not k, or curve not (ℓ+1)·W",
            Refusal::NoSymbol => "a symbol is not below p",
            Refusal::EqualPoints => "two equal points",
            Refusal::TooLittleRoom => {
                "output under ℓ·k, curve buffer under (ℓ+1)·W, or work under R (encode: output under n)"
            }
            Refusal::CurveFails => "the proposed curve does not pass",
        }
    }
}

impl fmt::Display for Refusal {
    fn fmt(&self, f: &mut fmt::Formatter) -> fmt::Result {
        write!(f, "refused with {}: {}", self.number(), self.why())?;
        match *self {
            Refusal::TooFewTerms(Taus::Between(_, last)) => write!(f, "; the largest accepted is {last}"),
            Refusal::ListTooLong(Taus::Between(first, _)) => write!(f, "; the smallest accepted is {first}"),
            Refusal::TooFewTerms(Taus::None) | Refusal::ListTooLong(Taus::None) => {
                write!(f, "; no τ is accepted with this n, k and s")
            }
            _ => Ok(()),
        }
    }
}

impl Error for Refusal {}
