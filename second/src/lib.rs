//! A second reader, after document 01 and on another plan than the proved one:
//! enumeration of messages, elimination for the curve, the search rule word for word.
//! The proved reader is compared with it, so plainness comes before speed everywhere.

pub mod calls;
pub mod code;
pub mod curve;
pub mod field;
pub mod make;
pub mod patch;
pub mod random;
pub mod readings;
pub mod request;
pub mod search;
pub mod setting;
pub mod text;

/// A number from 0 to p−1. Symbols arrive 16 bits wide; products of two need more.
pub type Symbol = u32;
