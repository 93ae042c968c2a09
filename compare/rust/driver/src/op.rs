//! One operation, its number, and its text in a script.
//!
//! A script is text: one line an operation, decimal numbers parted by one space,
//!
//! ```text
//! KIND  number of arguments  arguments..  number of answers  answers..
//! ```
//!
//! so a reader needs to know nothing of an operation to pass over it. The sketches that operations work on stand in
//! numbered slots. A slot is a slice of words, none at the start, that a sketch may be the first of. Numbers stand in
//! 32 bits at every width, and each fits the width that the operation is at.
//! What each kind takes and answers is said at `Op`; `refusal` is 0 where nothing is refused, and a refused operation
//! leaves every slot and buffer as it was.

use crate::width::Width;
use std::fmt::Write;

/// The most words of a slot in a recorded list: more than the greatest sketch has at any width.
pub const LONGEST: usize = 40;

/// An operation; at each what it takes, and what it answers.
#[derive(Clone, Debug)]
pub enum Op {
    /// slot threshold → refusal, the slot's words
    New { slot: usize, threshold: usize },
    /// slot words.. → nothing: the slot is a slice of these words, whatever they are and however many
    Put { slot: usize, words: Vec<u32> },
    /// slot → 1 or 0
    WellFormed { slot: usize },
    /// slot code → refusal, the slot's words
    Insert { slot: usize, code: u32 },
    /// slot code → refusal, the slot's words
    Remove { slot: usize, code: u32 },
    /// slot rhs → refusal, the slot's words
    SubAssign { slot: usize, rhs: usize },
    /// slot rhs to → refusal, the words of the slot `to`, which is another than the two
    Sub { slot: usize, rhs: usize, to: usize },
    /// slot room fill → refusal, n, the buffer of `room` places, each `fill` before the call
    ToCoeffs { slot: usize, room: usize, fill: u32 },
    /// x coefficients.. → refusal, value
    Eval { x: u32, coeffs: Vec<u32> },
    /// slot room fill log.. → refusal, n, the buffer
    Decode { slot: usize, room: usize, fill: u32, log: Vec<u32> },
    /// slot room fill → refusal, bytes written, the buffer's bytes
    Serialize { slot: usize, room: usize, fill: u8 },
    /// slot hint room fill → refusal, bytes written, the buffer's bytes
    SerializeWithHint { slot: usize, hint: usize, room: usize, fill: u8 },
    /// slot bytes.. → refusal, the slot's words
    Deserialize { slot: usize, bytes: Vec<u8> },
    /// code → residue
    Reduce(u32),
    /// a b → a + b
    Add(u32, u32),
    /// a b → a - b
    FieldSub(u32, u32),
    /// a b → a · b
    Mul(u32, u32),
    /// a → -a
    Neg(u32),
    /// a → the inverse
    Inv(u32),
    /// a exponent → the power, the multiplications
    Pow(u32, u32),
    /// exponent → the multiplications
    PowMultiplications(u32),
    /// x coefficients.. → refusal, value; at 16 bits alone
    EvalPrecompute { x: u32, coeffs: Vec<u32> },
    /// slot → 1 if the signed count is negative otherwise 0, its size
    SignedCount { slot: usize },
    /// slot to → refusal, the words of the slot `to`, which is another
    Negate { slot: usize, to: usize },
    /// slot room fill got codes.. → refusal, n, the buffer
    DecodeSurplus { slot: usize, room: usize, fill: u32, got: Vec<u32> },
}

/// The names of the kinds; a kind's number is its place here, from 1, and what a width adds.
pub const KINDS: [&str; 25] = [
    "new",
    "put",
    "well_formed",
    "insert",
    "remove",
    "sub_assign",
    "sub",
    "to_coeffs",
    "eval",
    "decode_with_log",
    "serialize",
    "serialize_with_hint",
    "deserialize",
    "field_reduce",
    "field_add",
    "field_sub",
    "field_mul",
    "field_neg",
    "field_inv",
    "field_pow",
    "field_pow_multiplications",
    "eval_precompute",
    "signed_count",
    "negate",
    "decode_surplus_with_log",
];

/// The number at 32 bits of the kind that one width alone has.
pub const EVAL_PRECOMPUTE: usize = 22;

/// Whether the first answer of a kind is a refusal.
pub fn may_refuse(kind: usize) -> bool {
    (4..=13).contains(&kind) || [1, EVAL_PRECOMPUTE, 24, 25].contains(&kind)
}

impl Op {
    /// The kind's number at 32 bits.
    pub fn kind(&self) -> usize {
        match self {
            Op::New { .. } => 1,
            Op::Put { .. } => 2,
            Op::WellFormed { .. } => 3,
            Op::Insert { .. } => 4,
            Op::Remove { .. } => 5,
            Op::SubAssign { .. } => 6,
            Op::Sub { .. } => 7,
            Op::ToCoeffs { .. } => 8,
            Op::Eval { .. } => 9,
            Op::Decode { .. } => 10,
            Op::Serialize { .. } => 11,
            Op::SerializeWithHint { .. } => 12,
            Op::Deserialize { .. } => 13,
            Op::Reduce(_) => 14,
            Op::Add(..) => 15,
            Op::FieldSub(..) => 16,
            Op::Mul(..) => 17,
            Op::Neg(_) => 18,
            Op::Inv(_) => 19,
            Op::Pow(..) => 20,
            Op::PowMultiplications(_) => 21,
            Op::EvalPrecompute { .. } => EVAL_PRECOMPUTE,
            Op::SignedCount { .. } => 23,
            Op::Negate { .. } => 24,
            Op::DecodeSurplus { .. } => 25,
        }
    }

    /// The slot that the operation is on, where it is on one.
    pub fn slot(&self) -> Option<usize> {
        match *self {
            Op::New { slot, .. }
            | Op::Put { slot, .. }
            | Op::WellFormed { slot }
            | Op::Insert { slot, .. }
            | Op::Remove { slot, .. }
            | Op::SubAssign { slot, .. }
            | Op::Sub { slot, .. }
            | Op::ToCoeffs { slot, .. }
            | Op::Decode { slot, .. }
            | Op::Serialize { slot, .. }
            | Op::SerializeWithHint { slot, .. }
            | Op::Deserialize { slot, .. }
            | Op::SignedCount { slot }
            | Op::Negate { slot, .. }
            | Op::DecodeSurplus { slot, .. } => Some(slot),
            _ => None,
        }
    }

    /// The arguments behind the slot, or all of an operation that is on none: numbers, and then a list.
    fn numbers(&self) -> (Vec<u64>, Vec<u64>) {
        let wide = |list: &[u32]| list.iter().map(|&n| n as u64).collect();
        match self {
            Op::New { threshold, .. } => (vec![*threshold as u64], vec![]),
            Op::Put { words, .. } => (vec![], wide(words)),
            Op::WellFormed { .. } | Op::SignedCount { .. } => (vec![], vec![]),
            Op::Insert { code, .. } | Op::Remove { code, .. } => (vec![*code as u64], vec![]),
            Op::SubAssign { rhs, .. } => (vec![*rhs as u64], vec![]),
            Op::Sub { rhs, to, .. } => (vec![*rhs as u64, *to as u64], vec![]),
            Op::Negate { to, .. } => (vec![*to as u64], vec![]),
            Op::ToCoeffs { room, fill, .. } => (vec![*room as u64, *fill as u64], vec![]),
            Op::Eval { x, coeffs } | Op::EvalPrecompute { x, coeffs } => (vec![*x as u64], wide(coeffs)),
            Op::Decode { room, fill, log, .. } => (vec![*room as u64, *fill as u64], wide(log)),
            Op::DecodeSurplus { room, fill, got, .. } => (vec![*room as u64, *fill as u64], wide(got)),
            Op::Serialize { room, fill, .. } => (vec![*room as u64, *fill as u64], vec![]),
            Op::SerializeWithHint { hint, room, fill, .. } => (vec![*hint as u64, *room as u64, *fill as u64], vec![]),
            Op::Deserialize { bytes, .. } => (vec![], bytes.iter().map(|&b| b as u64).collect()),
            Op::Reduce(a) | Op::Neg(a) | Op::Inv(a) | Op::PowMultiplications(a) => (vec![*a as u64], vec![]),
            Op::Add(a, b) | Op::FieldSub(a, b) | Op::Mul(a, b) | Op::Pow(a, b) => (vec![*a as u64, *b as u64], vec![]),
        }
    }

    /// All arguments, in the order of the line.
    fn arguments(&self) -> Vec<u64> {
        let (numbers, list) = self.numbers();
        self.slot().map(|slot| slot as u64).into_iter().chain(numbers).chain(list).collect()
    }

    /// The operation's line in a script of a width, with its LF.
    pub fn line(&self, width: &Width, answers: &[u64]) -> String {
        let mut text = (width.kinds + self.kind()).to_string();
        for list in [&self.arguments()[..], answers] {
            write!(text, " {}", list.len()).unwrap();
            for number in list {
                write!(text, " {number}").unwrap();
            }
        }
        text.push('\n');
        text
    }
}
