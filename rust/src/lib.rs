//! Whitebeamish for Rust: a reader for damaged Reed-Solomon patches that lists every message that fits, and never picks
//! one. The calls are proved in Rattle and come from libwhitebeamish.a, which is x86-64 Linux code; this crate is a safe
//! way to them. What it adds is not proved: it allocates, and it carries numbers to and fro.
//!
//! ```
//! use whitebeamish::Setting;
//!
//! let setting = Setting::new(7, 7, 2, 1, 3)?;
//! let reading = setting.read(&[0, 1, 2, 3, 4, 5, 6], &[0, 0, 0, 0, 4, 5, 6])?;
//! assert_eq!(reading.messages, [[0, 0], [0, 1]]);
//! # Ok::<(), whitebeamish::Refusal>(())
//! ```
//!
//! How much damage can be allowed is for [`Setting::largest`] to say; a setting with more is refused, and the error
//! names the largest τ that is accepted.
//!
//! A caller that keeps its buffers from word to word takes the calls in [`raw`], which are safe too.
#![deny(unsafe_code)]

pub mod field;
#[allow(unsafe_code)]
pub mod raw;
mod refusal;
mod setting;

pub use raw::Parameters;
pub use refusal::{Refusal, Taus};
pub use setting::{encode, Derived, Reading, Setting};
