//! The functions of `libeddybridge32.a` and `libeddybridge16.a`, declared for Rust as in `include/eddybridge32.h` and
//! `include/eddybridge16.h`, and a safe function over each.
//!
//! [`width32`] has sketches of 32-bit codes and [`width16`] those of 16-bit codes, by the same names. What both widths
//! share stands here: the refusals, the greatest threshold, and the forms of answers.
//!
//! A slice crosses as a pointer and then a length. A sketch of threshold T is the first `words(T)` words of its slice:
//! the threshold, the count, whether there is a last code, that code, and the T sums. What stands behind them is
//! neither read nor written. A call that may refuse answers the number of a refusal, [`OK`] where nothing is refused,
//! and a refused call changes nothing. The headers say more of each call.
//!
//! The crate's tests hold the declarations to the headers and to the source of the functions.
//!
//! ```
//! use eddybridge_sys::{width16, width32, OK};
//!
//! let mut sketch = [0; width32::words(3)];
//! assert_eq!(width32::new(3, &mut sketch), OK);
//! assert_eq!(width32::insert(&mut sketch, 10), OK);
//! assert_eq!(sketch, [3, 1, 1, 10, 10, 100, 1000]);
//!
//! let mut small = [0; width16::words(3)];
//! assert_eq!(width16::new(3, &mut small), OK);
//! assert_eq!(width16::insert(&mut small, 10), OK);
//! assert_eq!(small, [3, 1, 0, 1, 10, 10, 100, 1000]);
//! ```
#![no_std]
#![deny(missing_docs)]

#[macro_use]
mod calls;
pub mod width16;
pub mod width32;

/// The greatest threshold, at both widths.
pub const MAX_THRESHOLD: usize = 32;
/// The word of the threshold, at both widths.
pub const THRESHOLD: usize = 0;

/// The bytes of the packet of a sketch of a threshold, of the width whose words are `Word`: four for the count, and a
/// word for the last code and for each sum.
pub const fn packet_bytes<Word>(threshold: usize) -> usize {
    4 + (1 + threshold) * core::mem::size_of::<Word>()
}

/// Nothing is refused.
pub const OK: u32 = 0;
/// Refusal: the threshold is 0 or above [`MAX_THRESHOLD`].
pub const THRESHOLD_OUT_OF_RANGE: u32 = 1;
/// Refusal: the thresholds differ.
pub const THRESHOLDS_DIFFER: u32 = 2;
/// Refusal: there is no last code.
pub const NO_LAST_CODE: u32 = 3;
/// Refusal: the count is above the threshold; for a decoding of the surplus, the signed count is negative and its size is
/// above the threshold; or [`width16::eval_precompute`] has more than [`MAX_THRESHOLD`] coefficients.
pub const COUNT_ABOVE_THRESHOLD: u32 = 4;
/// Refusal: a slice to write to is too short.
pub const BUFFER_TOO_SHORT: u32 = 5;
/// Refusal: fewer bytes than the count and the last code have, 8 at 32 bits and 6 at 16 bits.
pub const PACKET_TOO_SHORT: u32 = 6;
/// Refusal: no sum, or more than [`MAX_THRESHOLD`].
pub const SUMS_OUT_OF_RANGE: u32 = 7;
/// Refusal: a sum that is read, or a coefficient, is the modulus or more.
pub const NOT_REDUCED: u32 = 8;
/// Refusal: no coefficient.
pub const NO_COEFFICIENT: u32 = 11;
/// Refusal: a sketch given is not well formed.
pub const NOT_WELL_FORMED: u32 = 12;

/// How many numbers or bytes were written, or a refusal and 0.
#[repr(C)]
#[derive(Clone, Copy, Debug, PartialEq, Eq)]
pub struct Number {
    /// The refusal, or [`OK`].
    pub refusal: u32,
    /// How many were written.
    pub value: usize,
}

/// A value, or a refusal and 0.
#[repr(C)]
#[derive(Clone, Copy, Debug, PartialEq, Eq)]
pub struct Value<Word> {
    /// The refusal, or [`OK`].
    pub refusal: u32,
    /// The value.
    pub value: Word,
}

/// A power, and the number of field multiplications made for it.
#[repr(C)]
#[derive(Clone, Copy, Debug, PartialEq, Eq)]
pub struct Power<Word> {
    /// The power, a residue.
    pub value: Word,
    /// The number of field multiplications made.
    pub multiplications: u32,
}
