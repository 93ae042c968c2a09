//! The widths of codes, and the calls that each of them has.
use core::fmt;
use core::hash::Hash;
use eddybridge_sys::{width16, width32, Number, Power, Value};

/// A width of values: `u32` or `u16`. No other type is one.
///
/// ```
/// use eddybridge::Width;
///
/// assert_eq!(u32::MODULUS, 4294967291); // 2^32 - 5
/// assert_eq!(u16::MODULUS, 65521); // 2^16 - 15
/// ```
pub trait Width: Calls + Copy + Default + Ord + Hash + fmt::Debug + fmt::Display {
    /// The prime that sums are taken modulo.
    const MODULUS: Self;
}

impl Width for u32 {
    const MODULUS: Self = width32::MODULUS;
}

impl Width for u16 {
    const MODULUS: Self = width16::MODULUS;
}

/// Gives both widths the functions that are listed, from the modules of `eddybridge-sys`.
macro_rules! calls {
    ($(fn $name:ident($($argument:ident: $type:ty),*) -> $answer:ty;)*) => {
        /// The calls of a width, on the words of sketches.
        #[allow(clippy::new_ret_no_self)]
        pub trait Calls: Sized {
            /// The name of the type of this width's sketches.
            const SKETCH: &'static str;
            /// The word that is 1 where there is a last value.
            const HAS_LAST: usize;
            /// The word of the last value.
            const LAST: usize;
            /// The word of the first sum.
            const SUMS: usize;

            /// The word as a length.
            fn length(self) -> usize;

            /// The residue that a call answers alone, which it does as a `u32` at every width.
            fn answered(residue: u32) -> Self;

            $(fn $name($($argument: $type),*) -> $answer;)*
        }

        calls! { u32, width32, "PowerSumQuackU32"; $(fn $name($($argument: $type),*) -> $answer;)* }
        calls! { u16, width16, "PowerSumQuackU16"; $(fn $name($($argument: $type),*) -> $answer;)* }
    };
    (
        $word:ident, $width:ident, $sketch:literal;
        $(fn $name:ident($($argument:ident: $type:ty),*) -> $answer:ty;)*
    ) => {
        impl Calls for $word {
            const SKETCH: &'static str = $sketch;
            const HAS_LAST: usize = $width::HAS_LAST;
            const LAST: usize = $width::LAST;
            const SUMS: usize = $width::SUMS;

            fn length(self) -> usize {
                self as usize
            }

            fn answered(residue: u32) -> Self {
                residue as $word
            }

            $(
                fn $name($($argument: $type),*) -> $answer {
                    $width::$name($($argument),*)
                }
            )*
        }
    };
}

calls! {
    fn new(threshold: usize, out: &mut [Self]) -> u32;
    fn count(s: &[Self]) -> u32;
    fn insert(s: &mut [Self], code: Self) -> u32;
    fn remove(s: &mut [Self], code: Self) -> u32;
    fn sub_assign(s: &mut [Self], rhs: &[Self]) -> u32;
    fn sub(s: &[Self], rhs: &[Self], out: &mut [Self]) -> u32;
    fn negate(s: &[Self], out: &mut [Self]) -> u32;
    fn signed_count(s: &[Self]) -> i32;
    fn to_coeffs(s: &[Self], coeffs: &mut [Self]) -> Number;
    fn eval(coeffs: &[Self], x: Self) -> Value<Self>;
    fn decode_with_log(s: &[Self], log: &[Self], out: &mut [Self]) -> Number;
    fn decode_surplus_with_log(s: &[Self], got: &[Self], out: &mut [Self]) -> Number;
    fn serialize(s: &[Self], buf: &mut [u8]) -> Number;
    fn serialize_with_hint(s: &[Self], buf: &mut [u8], hint: usize) -> Number;
    fn deserialize(buf: &[u8], out: &mut [Self]) -> u32;
    fn field_reduce(c: Self) -> u32;
    fn field_add(a: Self, b: Self) -> u32;
    fn field_sub(a: Self, b: Self) -> u32;
    fn field_neg(a: Self) -> u32;
    fn field_mul(a: Self, b: Self) -> u32;
    fn field_inv(a: Self) -> u32;
    fn field_pow(a: Self, e: Self) -> Power<Self>;
    fn field_pow_multiplications(e: Self) -> u32;
}
