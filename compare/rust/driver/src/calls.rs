//! The verified functions of a width, by one name each, so that the other files need not say which width they call.

use ours::{width16, width32, Number, Power, Value};

/// The functions of `libeddybridge32.a`.
pub struct Calls32;
/// The functions of `libeddybridge16.a`.
pub struct Calls16;

/// Declares the functions that both widths have, and finds them at each.
macro_rules! both {
    ($(fn $name:ident($($argument:ident: $type:ty),*) -> $answer:ty;)*) => {
        /// The verified functions of a width.
        pub trait Calls {
            /// A word, a code, a coefficient.
            type Word: Copy + PartialEq + Into<u64> + TryFrom<u32>;
            /// What stands around words that are lent.
            const GUARD: Self::Word;
            $(fn $name($($argument: $type),*) -> $answer;)*
            /// At 16 bits alone.
            fn eval_precompute(coeffs: &[Self::Word], x: Self::Word) -> Value<Self::Word>;
        }

        impl Calls for Calls32 {
            type Word = u32;
            const GUARD: u32 = 0xa5c3_96e1;
            $(fn $name($($argument: $type),*) -> $answer {
                width32::$name($($argument),*)
            })*
            fn eval_precompute(_: &[u32], _: u32) -> Value<u32> {
                unreachable!("no such call at 32 bits")
            }
        }

        impl Calls for Calls16 {
            type Word = u16;
            const GUARD: u16 = 0xa5c3;
            $(fn $name($($argument: $type),*) -> $answer {
                width16::$name($($argument),*)
            })*
            fn eval_precompute(coeffs: &[u16], x: u16) -> Value<u16> {
                width16::eval_precompute(coeffs, x)
            }
        }
    };
}

both! {
    fn new(threshold: usize, out: &mut [Self::Word]) -> u32;
    fn well_formed(s: &[Self::Word]) -> u32;
    fn insert(s: &mut [Self::Word], code: Self::Word) -> u32;
    fn remove(s: &mut [Self::Word], code: Self::Word) -> u32;
    fn sub_assign(s: &mut [Self::Word], rhs: &[Self::Word]) -> u32;
    fn sub(s: &[Self::Word], rhs: &[Self::Word], out: &mut [Self::Word]) -> u32;
    fn negate(s: &[Self::Word], out: &mut [Self::Word]) -> u32;
    fn signed_count(s: &[Self::Word]) -> i32;
    fn to_coeffs(s: &[Self::Word], coeffs: &mut [Self::Word]) -> Number;
    fn eval(coeffs: &[Self::Word], x: Self::Word) -> Value<Self::Word>;
    fn decode_with_log(s: &[Self::Word], log: &[Self::Word], out: &mut [Self::Word]) -> Number;
    fn decode_surplus_with_log(s: &[Self::Word], got: &[Self::Word], out: &mut [Self::Word]) -> Number;
    fn serialize(s: &[Self::Word], buf: &mut [u8]) -> Number;
    fn serialize_with_hint(s: &[Self::Word], buf: &mut [u8], hint: usize) -> Number;
    fn deserialize(buf: &[u8], out: &mut [Self::Word]) -> u32;
    fn field_reduce(c: Self::Word) -> u32;
    fn field_add(a: Self::Word, b: Self::Word) -> u32;
    fn field_sub(a: Self::Word, b: Self::Word) -> u32;
    fn field_mul(a: Self::Word, b: Self::Word) -> u32;
    fn field_neg(a: Self::Word) -> u32;
    fn field_inv(a: Self::Word) -> u32;
    fn field_pow(a: Self::Word, e: Self::Word) -> Power<Self::Word>;
    fn field_pow_multiplications(e: Self::Word) -> u32;
}
