//! Sketches of 16-bit codes: the functions of `libeddybridge16.a`.

/// A word of a sketch, a code, or a coefficient.
pub type Word = u16;

/// The prime, 2^16 - 15.
pub const MODULUS: Word = 65521;
/// The word of the count's low 16 bits.
pub const COUNT_LOW: usize = 1;
/// The word of the count's high 16 bits.
pub const COUNT_HIGH: usize = 2;
/// The word that is 1 where there is a last code, and 0 where there is none.
pub const HAS_LAST: usize = 3;
/// The word of the last code, 0 where there is none.
pub const LAST: usize = 4;
/// The word of the first sum.
pub const SUMS: usize = 5;

/// The count that stands in the words of a sketch.
///
/// # Panics
///
/// Where there is no word [`COUNT_LOW`] or [`COUNT_HIGH`].
pub fn count(s: &[Word]) -> u32 {
    u32::from(s[COUNT_HIGH]) << 16 | u32::from(s[COUNT_LOW])
}

calls! {
    "eddy16_";
    pub fn eval_precompute(coeffs: *const Word, coeffs_len: usize, x: Word) -> Value;
}

/// The value of the polynomial of the coefficients at `x`, as [`eval`] gives it, with one reduction for all products. It
/// takes at most [`MAX_THRESHOLD`](crate::MAX_THRESHOLD) coefficients.
pub fn eval_precompute(coeffs: &[Word], x: Word) -> Value {
    // SAFETY: as of each call that both widths have.
    unsafe { c::eval_precompute(coeffs.as_ptr(), coeffs.len(), x) }
}
