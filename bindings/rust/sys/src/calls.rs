//! What a width declares, written once for both.

/// Declares functions of an archive, each under its name there without the prefix.
macro_rules! declarations {
    ($prefix:literal; $(pub fn $name:ident($($argument:ident: $type:ty),* $(,)?) -> $answer:ty;)*) => {
        extern "C" {
            $(
                #[link_name = concat!($prefix, stringify!($name))]
                pub fn $name($($argument: $type),*) -> $answer;
            )*
        }
    };
}

/// Writes out a width whose functions have the prefix, in a module that has its `Word` and its `SUMS`. Further
/// declarations are those that the other width lacks.
macro_rules! calls {
    ($prefix:literal; $($more:tt)*) => {
        /// A value of this width, or a refusal and 0.
        pub type Value = crate::Value<Word>;
        /// A power of this width, and the number of field multiplications made for it.
        pub type Power = crate::Power<Word>;

        /// The words of a sketch of the greatest threshold.
        pub const MAX_WORDS: usize = words(crate::MAX_THRESHOLD);
        /// The bytes of the packet of a sketch of the greatest threshold.
        pub const MAX_PACKET_BYTES: usize = packet_bytes(crate::MAX_THRESHOLD);

        /// The words of a sketch of a threshold.
        pub const fn words(threshold: usize) -> usize {
            SUMS + threshold
        }

        /// The bytes of the packet of a sketch of a threshold.
        pub const fn packet_bytes(threshold: usize) -> usize {
            crate::packet_bytes::<Word>(threshold)
        }

        /// The declarations themselves. Each function is named in the archive with the width's prefix.
        #[allow(missing_docs)]
        pub mod c {
            use super::{Power, Value, Word};
            use crate::Number;

            declarations! {
                $prefix;
                pub fn new(threshold: usize, out: *mut Word, out_len: usize) -> u32;
                pub fn well_formed(s: *const Word, s_len: usize) -> u32;
                pub fn insert(s: *mut Word, s_len: usize, code: Word) -> u32;
                pub fn remove(s: *mut Word, s_len: usize, code: Word) -> u32;
                pub fn sub_assign(s: *mut Word, s_len: usize, rhs: *const Word, rhs_len: usize) -> u32;
                pub fn sub(
                    s: *const Word,
                    s_len: usize,
                    rhs: *const Word,
                    rhs_len: usize,
                    out: *mut Word,
                    out_len: usize,
                ) -> u32;
                pub fn negate(s: *const Word, s_len: usize, out: *mut Word, out_len: usize) -> u32;
                pub fn signed_count(s: *const Word, s_len: usize) -> i32;
                pub fn to_coeffs(s: *const Word, s_len: usize, coeffs: *mut Word, coeffs_len: usize) -> Number;
                pub fn eval(coeffs: *const Word, coeffs_len: usize, x: Word) -> Value;
                pub fn decode_with_log(
                    s: *const Word,
                    s_len: usize,
                    log: *const Word,
                    log_len: usize,
                    out: *mut Word,
                    out_len: usize,
                ) -> Number;
                pub fn decode_surplus_with_log(
                    s: *const Word,
                    s_len: usize,
                    got: *const Word,
                    got_len: usize,
                    out: *mut Word,
                    out_len: usize,
                ) -> Number;
                pub fn serialize(s: *const Word, s_len: usize, buf: *mut u8, buf_len: usize) -> Number;
                pub fn serialize_with_hint(
                    s: *const Word,
                    s_len: usize,
                    buf: *mut u8,
                    buf_len: usize,
                    hint: usize,
                ) -> Number;
                pub fn deserialize(buf: *const u8, buf_len: usize, out: *mut Word, out_len: usize) -> u32;
                pub fn field_reduce(c: Word) -> u32;
                pub fn field_add(a: Word, b: Word) -> u32;
                pub fn field_sub(a: Word, b: Word) -> u32;
                pub fn field_neg(a: Word) -> u32;
                pub fn field_mul(a: Word, b: Word) -> u32;
                pub fn field_inv(a: Word) -> u32;
                pub fn field_pow(a: Word, e: Word) -> Power;
                pub fn field_pow_multiplications(e: Word) -> u32;
                $($more)*
            }
        }

        use crate::Number;

        // SAFETY, of each call below: a pointer and its length are those of one slice, alive through the call, and a
        // slice lent for writing overlaps no other. The function takes every input, and touches nothing but the slices
        // that it is lent: that is its contract in the crate that the archive is made of.

        /// Makes a fresh sketch in the first words of `out`; the refusal.
        pub fn new(threshold: usize, out: &mut [Word]) -> u32 {
            unsafe { c::new(threshold, out.as_mut_ptr(), out.len()) }
        }

        /// 1 where `s` begins with the words of a well-formed sketch, otherwise 0.
        pub fn well_formed(s: &[Word]) -> u32 {
            unsafe { c::well_formed(s.as_ptr(), s.len()) }
        }

        /// Inserts a code; the refusal.
        pub fn insert(s: &mut [Word], code: Word) -> u32 {
            unsafe { c::insert(s.as_mut_ptr(), s.len(), code) }
        }

        /// Removes a code; the refusal.
        pub fn remove(s: &mut [Word], code: Word) -> u32 {
            unsafe { c::remove(s.as_mut_ptr(), s.len(), code) }
        }

        /// Subtracts `rhs` from `s`, in `s`; the refusal.
        pub fn sub_assign(s: &mut [Word], rhs: &[Word]) -> u32 {
            unsafe { c::sub_assign(s.as_mut_ptr(), s.len(), rhs.as_ptr(), rhs.len()) }
        }

        /// Writes `s` minus `rhs`, with the smaller threshold, to the first words of `out`; the refusal.
        pub fn sub(s: &[Word], rhs: &[Word], out: &mut [Word]) -> u32 {
            unsafe { c::sub(s.as_ptr(), s.len(), rhs.as_ptr(), rhs.len(), out.as_mut_ptr(), out.len()) }
        }

        /// Writes the negative of `s`, which has no last code, to the first words of `out`; the refusal.
        pub fn negate(s: &[Word], out: &mut [Word]) -> u32 {
            unsafe { c::negate(s.as_ptr(), s.len(), out.as_mut_ptr(), out.len()) }
        }

        /// The count that stands in the words, of a sketch or not, as a signed number; 0 where there are fewer words than
        /// stand before the sums.
        pub fn signed_count(s: &[Word]) -> i32 {
            unsafe { c::signed_count(s.as_ptr(), s.len()) }
        }

        /// Writes the coefficients, as many as the count, to the front of `coeffs`.
        pub fn to_coeffs(s: &[Word], coeffs: &mut [Word]) -> Number {
            unsafe { c::to_coeffs(s.as_ptr(), s.len(), coeffs.as_mut_ptr(), coeffs.len()) }
        }

        /// The value of the polynomial of the coefficients at `x`.
        pub fn eval(coeffs: &[Word], x: Word) -> Value {
            unsafe { c::eval(coeffs.as_ptr(), coeffs.len(), x) }
        }

        /// Writes the entries of the log that are in the sketch to the front of `out`, which needs as many places as
        /// the log.
        pub fn decode_with_log(s: &[Word], log: &[Word], out: &mut [Word]) -> Number {
            unsafe { c::decode_with_log(s.as_ptr(), s.len(), log.as_ptr(), log.len(), out.as_mut_ptr(), out.len()) }
        }

        /// Writes the entries of `got` that are in the negated sketch to the front of `out`, which needs as many places as
        /// `got`; none where the signed count is 0 or more.
        pub fn decode_surplus_with_log(s: &[Word], got: &[Word], out: &mut [Word]) -> Number {
            unsafe {
                c::decode_surplus_with_log(s.as_ptr(), s.len(), got.as_ptr(), got.len(), out.as_mut_ptr(), out.len())
            }
        }

        /// Writes the sketch as a packet to the front of `buf`.
        pub fn serialize(s: &[Word], buf: &mut [u8]) -> Number {
            unsafe { c::serialize(s.as_ptr(), s.len(), buf.as_mut_ptr(), buf.len()) }
        }

        /// Writes the sketch as a packet with at most `hint` sums to the front of `buf`.
        pub fn serialize_with_hint(s: &[Word], buf: &mut [u8], hint: usize) -> Number {
            unsafe { c::serialize_with_hint(s.as_ptr(), s.len(), buf.as_mut_ptr(), buf.len(), hint) }
        }

        /// Reads a packet to the first words of `out`; the refusal.
        pub fn deserialize(buf: &[u8], out: &mut [Word]) -> u32 {
            unsafe { c::deserialize(buf.as_ptr(), buf.len(), out.as_mut_ptr(), out.len()) }
        }

        /// The residue of `c`.
        pub fn field_reduce(c: Word) -> u32 {
            unsafe { c::field_reduce(c) }
        }

        /// The residue of `a + b`.
        pub fn field_add(a: Word, b: Word) -> u32 {
            unsafe { c::field_add(a, b) }
        }

        /// The residue of `a - b`.
        pub fn field_sub(a: Word, b: Word) -> u32 {
            unsafe { c::field_sub(a, b) }
        }

        /// The residue of `-a`.
        pub fn field_neg(a: Word) -> u32 {
            unsafe { c::field_neg(a) }
        }

        /// The residue of `a` times `b`.
        pub fn field_mul(a: Word, b: Word) -> u32 {
            unsafe { c::field_mul(a, b) }
        }

        /// The inverse of `a`; 0 for 0.
        pub fn field_inv(a: Word) -> u32 {
            unsafe { c::field_inv(a) }
        }

        /// `a` to the power `e`, which is not reduced, and the number of multiplications made.
        pub fn field_pow(a: Word, e: Word) -> Power {
            unsafe { c::field_pow(a, e) }
        }

        /// The number of multiplications of [`field_pow`] alone.
        pub fn field_pow_multiplications(e: Word) -> u32 {
            unsafe { c::field_pow_multiplications(e) }
        }
    };
}
