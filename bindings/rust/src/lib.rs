//! The power-sum sketches of Eddybridge: a port of `PowerSumQuackU32` and `PowerSumQuackU16` of the Rust crate `quack` in
//! which every call is proved to meet its contract.
//!
//! A sketch of threshold T keeps T sums of powers modulo the prime of its width, [`Width::MODULUS`], a count, and the last
//! value inserted. Two parties each insert the values that they see. One sends its sketch as a packet, of 8 + 4T bytes at
//! 32 bits and of 6 + 2T bytes at 16 bits; the other subtracts it from its own, and decodes which entries of its log the
//! first has not seen, as long as these are at most T and the first saw nothing that the other did not. Where the first
//! saw more than the other, and nothing less, the surplus is decoded out of the log of what the first saw.
//!
//! The sketches are compiled from verified functions and linked as static libraries, which the crate `eddybridge-sys`
//! declares. This crate gives them Rust types. It adds no rule of its own.
//!
//! No call panics on bad input. Each that may refuse answers a [`Refusal`], and a refused call changes nothing.
//!
//! The crate does without the standard library. The feature `alloc`, which is on unless turned off, adds the calls that
//! answer a vector; [`PowerSumQuack::decode_into`] needs none.
//!
//! ```
//! use eddybridge::PowerSumQuackU32;
//!
//! # fn main() -> Result<(), eddybridge::Refusal> {
//! let log = [1, 2, 10];
//! let mut sent = PowerSumQuackU32::new(3)?;
//! for value in log {
//!     sent.insert(value);
//! }
//!
//! let mut received = PowerSumQuackU32::new(3)?;
//! received.insert(1);
//! received.insert(10);
//! let mut packet = [0; PowerSumQuackU32::packet_len(3)];
//! received.serialize(&mut packet)?;
//!
//! let missing = sent.sub(&PowerSumQuackU32::deserialize(&packet)?);
//! assert_eq!(missing.count(), 1);
//! assert_eq!(missing.decode_with_log(&log)?, [2]);
//! # Ok(())
//! # }
//! ```
#![no_std]
#![deny(missing_docs, unsafe_code)]

#[cfg(feature = "alloc")]
extern crate alloc;

pub mod field;
mod power_sum;
mod refusal;
mod width;

pub use power_sum::{PowerSumQuack, PowerSumQuackU16, PowerSumQuackU32};
pub use refusal::Refusal;
pub use width::Width;

use eddybridge_sys as sys;
use field::Residue;

/// The greatest threshold, 32.
///
/// ```
/// use eddybridge::{PowerSumQuackU32, MAX_THRESHOLD};
///
/// assert!(PowerSumQuackU32::new(MAX_THRESHOLD).is_ok());
/// assert!(PowerSumQuackU32::new(MAX_THRESHOLD + 1).is_err());
/// ```
pub const MAX_THRESHOLD: usize = sys::MAX_THRESHOLD;

/// The value at `x` of the polynomial x^n + a1·x^(n-1) + ... + an, whose coefficients a1 to an are `coeffs`.
///
/// The coefficient of x^n is 1 and is not listed. `x` is reduced first.
///
/// # Errors
///
/// [`Refusal::NoCoefficient`] where `coeffs` is empty.
///
/// # Examples
///
/// ```
/// use eddybridge::{eval, field::Residue, Refusal};
///
/// let coeffs = [-Residue::<u32>::new(22), Residue::new(120)]; // x^2 - 22x + 120
/// assert_eq!(eval(&coeffs, 10), Ok(Residue::new(0)));
/// assert_eq!(eval(&coeffs, 11), Ok(-Residue::new(1)));
/// assert_eq!(eval::<u32>(&[], 10), Err(Refusal::NoCoefficient));
/// ```
pub fn eval<W: Width>(coeffs: &[Residue<W>], x: W) -> Result<Residue<W>, Refusal> {
    given(W::eval(Residue::numbers(coeffs), x))
}

/// The value that [`eval`] gives, for at most [`MAX_THRESHOLD`] coefficients of 16 bits: all products are formed first,
/// and their sum is reduced once.
///
/// # Errors
///
/// - [`Refusal::NoCoefficient`] where `coeffs` is empty;
/// - [`Refusal::CountAboveThreshold`] where there are more than [`MAX_THRESHOLD`].
///
/// # Examples
///
/// ```
/// use eddybridge::{eval_precompute, field::Residue, Refusal};
///
/// let coeffs = [-Residue::<u16>::new(22), Residue::new(120)]; // x^2 - 22x + 120
/// assert_eq!(eval_precompute(&coeffs, 10), Ok(Residue::new(0)));
/// assert_eq!(eval_precompute(&coeffs, 11), Ok(-Residue::new(1)));
/// assert_eq!(eval_precompute(&[Residue::new(1); 33], 11), Err(Refusal::CountAboveThreshold));
/// ```
pub fn eval_precompute(coeffs: &[Residue<u16>], x: u16) -> Result<Residue<u16>, Refusal> {
    given(sys::width16::eval_precompute(Residue::numbers(coeffs), x))
}

/// The residue that an evaluation answers, or its refusal.
fn given<W: Width>(answer: sys::Value<W>) -> Result<Residue<W>, Refusal> {
    Refusal::unless(answer.refusal, Residue::answered(answer.value))
}

/// Runs the examples of the read-me.
#[cfg(all(doctest, feature = "alloc"))]
#[doc = include_str!("../README.md")]
struct Readme;
