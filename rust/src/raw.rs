//! The calls as the archive has them: buffers are lent, the refusal number is returned, further results go to the front
//! of the answer. The rest of the crate allocates; these are for callers that keep their buffers.
//!
//! All of the crate's `unsafe` is here. Nothing checks the declarations against the Rattle source: the compiler and the
//! linker believe them. They are compared by tests/same.rs, which makes every call, on many thousand numbers, next to
//! the second program.
//!
//! What makes every block below sound: the Rattle functions ask nothing of the numbers and the lengths (no `requires`),
//! and they ask of a slice what Rust promises of it. A Rust slice's pointer is never null, is aligned and is good for
//! its length; what is behind `&` is not written, and what is behind `&mut` overlaps nothing else. The archive keeps no
//! state and never unwinds.

/// p, n, k, s and τ, of any size.
#[derive(Clone, Copy, Debug, PartialEq, Eq, Hash)]
pub struct Parameters {
    pub p: usize,
    pub n: usize,
    pub k: usize,
    pub s: usize,
    pub tau: usize,
}

/// Pointer and length of lent numbers, one after the other as the C calling convention passes a Rattle slice.
mod declared {
    extern "C" {
        pub fn whitebeamish_is_modulus(p: usize) -> bool;
        pub fn whitebeamish_sum(p: usize, a: u16, b: u16, answer: *mut usize, answer_length: usize) -> u16;
        pub fn whitebeamish_difference(p: usize, a: u16, b: u16, answer: *mut usize, answer_length: usize) -> u16;
        pub fn whitebeamish_product(p: usize, a: u16, b: u16, answer: *mut usize, answer_length: usize) -> u16;
        pub fn whitebeamish_inverse(p: usize, a: u16, answer: *mut usize, answer_length: usize) -> u16;
        pub fn whitebeamish_setting(
            p: usize,
            n: usize,
            k: usize,
            s: usize,
            tau: usize,
            answer: *mut usize,
            answer_length: usize,
        ) -> u16;
        pub fn whitebeamish_encode(
            p: usize,
            n: usize,
            k: usize,
            points: *const u16,
            points_length: usize,
            message: *const u16,
            message_length: usize,
            output: *mut u16,
            output_length: usize,
        ) -> u16;
        pub fn whitebeamish_check(
            p: usize,
            n: usize,
            k: usize,
            s: usize,
            tau: usize,
            points: *const u16,
            points_length: usize,
            word: *const u16,
            word_length: usize,
            curve: *const u16,
            curve_length: usize,
            answer: *mut usize,
            answer_length: usize,
        ) -> u16;
        pub fn whitebeamish_find(
            p: usize,
            n: usize,
            k: usize,
            s: usize,
            tau: usize,
            points: *const u16,
            points_length: usize,
            word: *const u16,
            word_length: usize,
            curve: *mut u16,
            curve_length: usize,
            work: *mut u16,
            work_length: usize,
        ) -> u16;
        pub fn whitebeamish_list(
            p: usize,
            n: usize,
            k: usize,
            s: usize,
            tau: usize,
            points: *const u16,
            points_length: usize,
            word: *const u16,
            word_length: usize,
            curve: *const u16,
            curve_length: usize,
            output: *mut u16,
            output_length: usize,
            work: *mut u16,
            work_length: usize,
            answer: *mut usize,
            answer_length: usize,
        ) -> u16;
        pub fn whitebeamish_read(
            p: usize,
            n: usize,
            k: usize,
            s: usize,
            tau: usize,
            points: *const u16,
            points_length: usize,
            word: *const u16,
            word_length: usize,
            output: *mut u16,
            output_length: usize,
            curve: *mut u16,
            curve_length: usize,
            work: *mut u16,
            work_length: usize,
            answer: *mut usize,
            answer_length: usize,
        ) -> u16;
    }
}

/// Whether p is a prime from 2 to 929.
pub fn is_modulus(p: usize) -> bool {
    // SAFETY: takes a number only.
    unsafe { declared::whitebeamish_is_modulus(p) }
}

/// Answer: the symbol. Refusals 1, 6.
pub fn sum(p: usize, a: u16, b: u16, answer: &mut [usize]) -> u16 {
    // SAFETY: the answer is a slice of its length that nothing else holds.
    unsafe { declared::whitebeamish_sum(p, a, b, answer.as_mut_ptr(), answer.len()) }
}

/// Answer: the symbol. Refusals 1, 6.
pub fn difference(p: usize, a: u16, b: u16, answer: &mut [usize]) -> u16 {
    // SAFETY: the answer is a slice of its length that nothing else holds.
    unsafe { declared::whitebeamish_difference(p, a, b, answer.as_mut_ptr(), answer.len()) }
}

/// Answer: the symbol. Refusals 1, 6.
pub fn product(p: usize, a: u16, b: u16, answer: &mut [usize]) -> u16 {
    // SAFETY: the answer is a slice of its length that nothing else holds.
    unsafe { declared::whitebeamish_product(p, a, b, answer.as_mut_ptr(), answer.len()) }
}

/// Answer: the symbol, 0 for 0. Refusals 1, 6.
pub fn inverse(p: usize, a: u16, answer: &mut [usize]) -> u16 {
    // SAFETY: the answer is a slice of its length that nothing else holds.
    unsafe { declared::whitebeamish_inverse(p, a, answer.as_mut_ptr(), answer.len()) }
}

/// Answer: W, ℓ, C, U and R. Refusals 1 to 4.
pub fn setting(a: Parameters, answer: &mut [usize]) -> u16 {
    // SAFETY: the answer is a slice of its length that nothing else holds.
    unsafe { declared::whitebeamish_setting(a.p, a.n, a.k, a.s, a.tau, answer.as_mut_ptr(), answer.len()) }
}

/// The patch goes to the first n numbers of the output. Refusals 1, 2, 5, 6, 7, and 8 for an output under n.
pub fn encode(p: usize, n: usize, k: usize, points: &[u16], message: &[u16], output: &mut [u16]) -> u16 {
    // SAFETY: three slices of their lengths; only the output is written, and nothing else holds it.
    unsafe {
        declared::whitebeamish_encode(
            p,
            n,
            k,
            points.as_ptr(),
            points.len(),
            message.as_ptr(),
            message.len(),
            output.as_mut_ptr(),
            output.len(),
        )
    }
}

/// Answer: 1 where the curve passes for the word, else 0. Refusals 1 to 7.
pub fn check(a: Parameters, points: &[u16], word: &[u16], curve: &[u16], answer: &mut [usize]) -> u16 {
    // SAFETY: four slices of their lengths; only the answer is written, and nothing else holds it.
    unsafe {
        declared::whitebeamish_check(
            a.p,
            a.n,
            a.k,
            a.s,
            a.tau,
            points.as_ptr(),
            points.len(),
            word.as_ptr(),
            word.len(),
            curve.as_ptr(),
            curve.len(),
            answer.as_mut_ptr(),
            answer.len(),
        )
    }
}

/// The curve goes to the front of its buffer, and the first R numbers of work become 0. Refusals 1 to 8.
pub fn find(a: Parameters, points: &[u16], word: &[u16], curve: &mut [u16], work: &mut [u16]) -> u16 {
    // SAFETY: four slices of their lengths; the two that are written overlap nothing, being `&mut`.
    unsafe {
        declared::whitebeamish_find(
            a.p,
            a.n,
            a.k,
            a.s,
            a.tau,
            points.as_ptr(),
            points.len(),
            word.as_ptr(),
            word.len(),
            curve.as_mut_ptr(),
            curve.len(),
            work.as_mut_ptr(),
            work.len(),
        )
    }
}

/// Message number j of the list starts at place j·k of the output, and the first R numbers of work become 0.
/// Answer: list length and beginnings. Refusals 1 to 9.
pub fn list(
    a: Parameters,
    points: &[u16],
    word: &[u16],
    curve: &[u16],
    output: &mut [u16],
    work: &mut [u16],
    answer: &mut [usize],
) -> u16 {
    // SAFETY: six slices of their lengths; the three that are written overlap nothing, being `&mut`.
    unsafe {
        declared::whitebeamish_list(
            a.p,
            a.n,
            a.k,
            a.s,
            a.tau,
            points.as_ptr(),
            points.len(),
            word.as_ptr(),
            word.len(),
            curve.as_ptr(),
            curve.len(),
            output.as_mut_ptr(),
            output.len(),
            work.as_mut_ptr(),
            work.len(),
            answer.as_mut_ptr(),
            answer.len(),
        )
    }
}

/// As `find` and then `list`: the curve used goes to the front of its buffer.
/// Answer: list length and beginnings. Refusals 1 to 8.
pub fn read(
    a: Parameters,
    points: &[u16],
    word: &[u16],
    output: &mut [u16],
    curve: &mut [u16],
    work: &mut [u16],
    answer: &mut [usize],
) -> u16 {
    // SAFETY: six slices of their lengths; the four that are written overlap nothing, being `&mut`.
    unsafe {
        declared::whitebeamish_read(
            a.p,
            a.n,
            a.k,
            a.s,
            a.tau,
            points.as_ptr(),
            points.len(),
            word.as_ptr(),
            word.len(),
            output.as_mut_ptr(),
            output.len(),
            curve.as_mut_ptr(),
            curve.len(),
            work.as_mut_ptr(),
            work.len(),
            answer.as_mut_ptr(),
            answer.len(),
        )
    }
}
