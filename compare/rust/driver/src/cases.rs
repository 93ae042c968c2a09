//! The operations that every run begins with: the cases P1 to P12 of the bench, its case without a number, the powers
//! at the ends of their range, each threshold with a packet exactly full and one byte short, and sketches in slices of
//! as many words as they have, of more, and of fewer; counts at which something changes, as they are and as signed
//! ones, with what is missing and what is surplus; at 16 bits those of the second width, which are the same with its
//! numbers, and the value with one reduction.

use crate::op::{Op, LONGEST};
use crate::width::Width;
use ours::{MAX_THRESHOLD, THRESHOLD};

/// What fills words and bytes that are lent.
const FILL: u32 = 7;
const BYTE: u8 = 0xee;

/// Counts at which something changes, at some width: of these below 0 as signed ones the last seven.
pub const COUNTS: [u32; 17] = [
    0,
    1,
    2,
    31,
    32,
    33,
    65534,
    65535,
    65536,
    (1 << 31) - 1,
    1 << 31,
    (1 << 31) + 1,
    33u32.wrapping_neg(),
    32u32.wrapping_neg(),
    31u32.wrapping_neg(),
    2u32.wrapping_neg(),
    1u32.wrapping_neg(),
];

/// Makes operations at a width.
struct Cases(&'static Width);

/// Makes a slot a slice of a length.
fn slice(slot: usize, length: usize) -> Op {
    Op::Put { slot, words: vec![FILL; length] }
}

/// Decodes a slot with a log, into as many places.
fn decode(slot: usize, log: impl IntoIterator<Item = u32>) -> Op {
    let log: Vec<u32> = log.into_iter().collect();
    Op::Decode { slot, room: log.len(), fill: FILL, log }
}

/// Decodes the surplus of a slot with got codes, into as many places.
fn surplus(slot: usize, got: impl IntoIterator<Item = u32>) -> Op {
    let got: Vec<u32> = got.into_iter().collect();
    Op::DecodeSurplus { slot, room: got.len(), fill: FILL, got }
}

/// Writes the packet of a slot into a room of bytes.
fn write(slot: usize, room: usize) -> Op {
    Op::Serialize { slot, room, fill: BYTE }
}

impl Cases {
    /// A sketch in a slice of as many words.
    fn fresh(&self, slot: usize, threshold: usize, codes: impl IntoIterator<Item = u32>) -> Vec<Op> {
        let mut ops = vec![slice(slot, self.0.words(threshold)), Op::New { slot, threshold }];
        ops.extend(codes.into_iter().map(|code| Op::Insert { slot, code }));
        ops
    }

    /// Reads a packet of these numbers into a slot.
    fn read(&self, slot: usize, count: u32, last: u32, sums: &[u32]) -> Op {
        Op::Deserialize { slot, bytes: self.0.packet(count, last, sums) }
    }

    /// P1 to P4: residues, the field, inverses, powers.
    fn field(&self) -> Vec<Op> {
        let (p, greatest) = (self.0.modulus, self.0.greatest());
        let mut ops: Vec<Op> = [p - 1, p, greatest].map(Op::Reduce).into();
        ops.extend([Op::Add(p - 1, 1), Op::FieldSub(0, 1), Op::Mul(p - 1, p - 1), Op::Neg(0), Op::Inv(0)]);
        ops.extend([2, 3, 4].map(Op::Inv));
        for exponent in [0, 1, 2, 3, 10, p - 2, greatest] {
            ops.extend([Op::Pow(2, exponent), Op::Pow(0, exponent), Op::PowMultiplications(exponent)]);
        }
        ops
    }

    /// P5 to P11: sums, coefficients, lists, a packet, counts below 0, last codes.
    fn sketches(&self) -> Vec<Op> {
        let greatest = self.0.greatest();
        let mut ops = self.fresh(0, 3, [10, 12]);
        ops.push(Op::ToCoeffs { slot: 0, room: 3, fill: FILL });
        ops.push(decode(0, [1, 2, 10, 12, 10]));
        ops.extend(self.fresh(0, 3, [10, 10]));
        ops.push(decode(0, [1, 10, 10, 10]));
        ops.extend(self.fresh(0, 2, [1, 10]));
        ops.push(write(0, self.0.packet_bytes(2)));
        ops.extend(self.fresh(0, 1, []));
        ops.extend([Op::Remove { slot: 0, code: 1 }, write(0, self.0.packet_bytes(1)), decode(0, [1])]);
        ops.extend(self.fresh(0, 2, [1]));
        ops.extend([Op::Remove { slot: 0, code: 2 }, decode(0, [1, 2])]);
        for code in [greatest, greatest - self.0.modulus] {
            ops.extend(self.fresh(0, 2, [greatest]));
            ops.push(Op::Remove { slot: 0, code });
        }
        ops
    }

    /// P9 and P10 read as signed, negated and decoded for their surplus, into room enough and one place short; and a kit
    /// that arrived whole with as many codes more as the threshold, two of one residue among them, and with one more.
    fn surplus(&self) -> Vec<Op> {
        let (p, greatest) = (self.0.modulus, self.0.greatest());
        let short = |slot| Op::DecodeSurplus { slot, room: 1, fill: FILL, got: vec![1, 2] };
        let told = |slot| [Op::SignedCount { slot }, surplus(slot, [1, 2]), short(slot), Op::Negate { slot, to: 1 }];
        let mut ops = self.fresh(0, 1, []);
        ops.push(Op::Remove { slot: 0, code: 1 });
        ops.push(slice(1, self.0.words(1)));
        ops.extend(told(0));
        ops.extend([Op::SignedCount { slot: 1 }, decode(1, [1, 2]), surplus(1, [1, 2])]);
        ops.extend(self.fresh(0, 2, [1]));
        ops.push(Op::Remove { slot: 0, code: 2 });
        ops.extend(told(0));
        ops.push(slice(1, LONGEST));
        ops.extend(told(0));
        let got = [10, 12, greatest, 10, 3, greatest - p, 9];
        ops.extend(self.fresh(0, 3, [10, 3]));
        ops.extend(self.fresh(1, 3, [3, 12, 10, 10, greatest]));
        ops.extend([Op::SubAssign { slot: 0, rhs: 1 }, Op::SignedCount { slot: 0 }, surplus(0, got), decode(0, got)]);
        ops.extend([Op::Negate { slot: 0, to: 1 }, decode(1, got), surplus(1, got)]);
        ops.extend([Op::Remove { slot: 0, code: 9 }, Op::SignedCount { slot: 0 }, surplus(0, got)]);
        ops
    }

    /// P12 and the case without a number: lengths of packets, the greatest sum, the greatest threshold.
    fn limits(&self) -> Vec<Op> {
        let (p, head, over) = (self.0.modulus, self.0.head_bytes(), self.0.packet_bytes(MAX_THRESHOLD + 1));
        let lengths = [head - 1, head, self.0.packet_bytes(1) - 1, over, self.0.packet_bytes(1), over - 1];
        let mut ops = vec![slice(0, self.0.words(MAX_THRESHOLD))];
        ops.extend(lengths.map(|length| Op::Deserialize { slot: 0, bytes: vec![0; length] }));
        ops.extend([self.read(0, 1, 1, &[p - 1]), self.read(0, 1, 1, &[p])]);
        ops.extend(self.fresh(0, 32, 1..=32));
        ops.push(Op::ToCoeffs { slot: 0, room: 32, fill: FILL });
        ops.push(decode(0, 1..=40));
        ops.extend([Op::Insert { slot: 0, code: 33 }, decode(0, 1..=40)]);
        ops
    }

    /// Each threshold with a packet exactly full and one byte short.
    fn thresholds(&self) -> Vec<Op> {
        (1..=32)
            .flat_map(|threshold| {
                let full = self.0.packet_bytes(threshold);
                let mut ops = self.fresh(1, threshold, [self.0.modulus - threshold as u32]);
                ops.extend([write(1, full), write(1, full - 1)]);
                ops
            })
            .collect()
    }

    /// Each call that gives a sketch, into a slice of a length, and each call on what stands there then: a sketch, or
    /// words that are none.
    fn in_slice(&self, threshold: usize, length: usize) -> Vec<Op> {
        let (slot, other) = (0, 1);
        let full = self.0.packet_bytes(threshold);
        let mut ops = self.fresh(other, threshold, [5, 6]);
        ops.extend([slice(slot, length), Op::New { slot, threshold: 0 }, Op::New { slot, threshold }]);
        ops.extend([Op::WellFormed { slot }, Op::Insert { slot, code: 9 }, Op::Remove { slot, code: 8 }]);
        ops.extend([Op::ToCoeffs { slot, room: 2, fill: FILL }, decode(slot, [8, 9]), write(slot, full)]);
        ops.extend([Op::SerializeWithHint { slot, hint: 0, room: 9, fill: BYTE }, Op::SubAssign { slot, rhs: other }]);
        ops.extend([Op::SignedCount { slot }, surplus(slot, [5, 6])]);
        ops.extend([slice(2, length), Op::Negate { slot: other, to: 2 }, Op::Negate { slot, to: 2 }]);
        ops.extend([slice(2, length), Op::Sub { slot: other, rhs: other, to: 2 }]);
        ops.extend([Op::Sub { slot: other, rhs: slot, to: 2 }, Op::SubAssign { slot: other, rhs: slot }]);
        ops.extend([slice(slot, length), self.read(slot, 1, 1, &vec![1; threshold])]);
        ops.push(Op::Insert { slot, code: self.0.modulus });
        ops
    }

    /// The same in slices of no word, of about the head's, of about the sketch's, and of the most.
    fn slices(&self) -> Vec<Op> {
        let head = self.0.sums();
        let lengths = |threshold| [0, head - 1, head, head + threshold - 1, head + threshold, LONGEST];
        [1, 3, MAX_THRESHOLD]
            .map(|threshold| lengths(threshold).map(|length| self.in_slice(threshold, length)).concat())
            .concat()
    }

    /// The value with one reduction, beside the plain one: each refusal, and the greatest numbers.
    fn single_reduction(&self) -> Vec<Op> {
        let (p, greatest) = (self.0.modulus, self.0.greatest());
        let lists = [
            vec![],
            vec![p],
            vec![0; MAX_THRESHOLD + 1],
            vec![p; MAX_THRESHOLD + 1],
            [vec![0; MAX_THRESHOLD - 1], vec![greatest]].concat(),
            vec![p - 22, 120],
            vec![p - 1; MAX_THRESHOLD],
            vec![0; MAX_THRESHOLD],
        ];
        let mut ops = vec![];
        for x in [1, greatest, p - 1] {
            for coeffs in lists.clone() {
                ops.extend([Op::EvalPrecompute { x, coeffs: coeffs.clone() }, Op::Eval { x, coeffs }]);
            }
        }
        ops
    }

    /// A sketch of each count at which something changes: one code in, two out, and every call that reads it.
    fn counts(&self) -> Vec<Op> {
        let slot = 0;
        let of = |count: u32| {
            let mut words = vec![0; self.0.words(2)];
            words[THRESHOLD] = 2;
            self.0.put_count(&mut words, count);
            let (insert, remove) = (Op::Insert { slot, code: 3 }, Op::Remove { slot, code: 2 });
            let mut ops = vec![Op::Put { slot, words }, insert, remove.clone(), remove];
            ops.extend([Op::ToCoeffs { slot, room: 2, fill: FILL }, decode(slot, [2, 3])]);
            ops.extend([write(slot, self.0.packet_bytes(2)), Op::SignedCount { slot }, surplus(slot, [2, 3])]);
            ops.push(Op::Negate { slot, to: 1 });
            ops
        };
        std::iter::once(slice(1, self.0.words(2))).chain(COUNTS.into_iter().flat_map(of)).collect()
    }
}

/// All of it at a width.
pub fn opening(width: &'static Width) -> Vec<Op> {
    let cases = Cases(width);
    let mut first = cases.field();
    if width.single_reduction {
        first.extend(cases.single_reduction());
    }
    let sketches = [cases.sketches(), cases.surplus(), cases.limits(), cases.counts()].concat();
    [first, sketches, cases.thresholds(), cases.slices()].concat()
}
