//! Sketches of 32-bit codes: the functions of `libeddybridge32.a`.

/// A word of a sketch, a code, or a coefficient.
pub type Word = u32;

/// The prime, 2^32 - 5.
pub const MODULUS: Word = 4294967291;
/// The word of the count.
pub const COUNT: usize = 1;
/// The word that is 1 where there is a last code, and 0 where there is none.
pub const HAS_LAST: usize = 2;
/// The word of the last code, 0 where there is none.
pub const LAST: usize = 3;
/// The word of the first sum.
pub const SUMS: usize = 4;

/// The count that stands in the words of a sketch.
///
/// # Panics
///
/// Where there is no word [`COUNT`].
pub fn count(s: &[Word]) -> u32 {
    s[COUNT]
}

calls! { "eddy32_"; }
