//! The rules of words, packets and coefficients, tried through: every threshold in slices of every length, and every
//! fault that words can have, each given to every call on sketches as each of its arguments; packets of every length
//! and with every fault; counts and pairs of counts at every edge, as they are and as signed ones; last codes and removed
//! codes at every edge; every number of coefficients; products that leave next to nothing or next to the prime; and, at
//! 16 bits, every code to each operation on one.

use crate::cases::COUNTS;
use crate::op::{Op, LONGEST};
use crate::rng::Rng;
use crate::width::Width;
use ours::{MAX_THRESHOLD, THRESHOLD};

/// The slot of the words that are tried, that of a good sketch of the same threshold, and that of a result.
const TRIED: usize = 0;
const GOOD: usize = 1;
const RESULT: usize = 2;

/// A code to insert, remove and look for; what fills words and bytes that are lent.
const CODE: u32 = 12345;
const FILL: u32 = 0xfeed;
const BYTE: u8 = 0xee;

/// The most words that are tried, and how many bytes more than the longest packet.
const MOST_WORDS: usize = LONGEST + 1;
const MORE_BYTES: usize = 10;

/// Makes operations at a width.
struct Sweep {
    width: &'static Width,
    rng: Rng,
}

impl Sweep {
    /// Any code below the prime.
    fn residue(&mut self) -> u32 {
        self.width.any(&mut self.rng) % self.width.modulus
    }

    /// The words of a sketch of a threshold, and any numbers behind them.
    fn sketch(&mut self, threshold: usize) -> Vec<u32> {
        let width = self.width;
        let mut words: Vec<u32> = (0..MOST_WORDS).map(|_| width.any(&mut self.rng)).collect();
        words[THRESHOLD] = threshold as u32;
        width.put_count(&mut words, self.rng.range(0, threshold + 1) as u32);
        words[width.has_last()] = 1;
        for word in &mut words[width.last()..width.words(threshold)] {
            *word %= width.modulus;
        }
        words
    }

    /// The words of a sketch with a count below 0, by up to one more than the threshold.
    fn below_zero(&mut self, words: &[u32]) -> Vec<u32> {
        let size = self.rng.range(1, words[THRESHOLD] as usize + 1) as u32;
        let mut copy = words.to_vec();
        self.width.put_count(&mut copy, size.wrapping_neg());
        copy
    }

    /// Codes to look for.
    fn sought(&self) -> Vec<u32> {
        vec![0, CODE, self.width.modulus - 1]
    }

    /// Every call that reads a sketch, on the words that are tried, with a buffer long enough and with none.
    fn readers(&self, threshold: usize) -> Vec<Op> {
        let slot = TRIED;
        let mut ops = vec![Op::WellFormed { slot }];
        for room in [0, self.width.packet_bytes(threshold)] {
            ops.push(Op::ToCoeffs { slot, room, fill: FILL });
            ops.push(Op::Decode { slot, room, fill: FILL, log: self.sought() });
            ops.push(Op::Serialize { slot, room, fill: BYTE });
            ops.push(Op::SerializeWithHint { slot, hint: threshold / 2, room, fill: BYTE });
        }
        ops
    }

    /// Every call on sketches, given the words as each of its arguments and as the place of its result.
    fn calls(&self, good: &[u32], tried: &[u32], threshold: usize) -> Vec<Op> {
        let bytes = self.width.packet_of(good, good[self.width.last()], threshold);
        let put = |slot| Op::Put { slot, words: tried.to_vec() };
        let mut ops = vec![Op::Put { slot: GOOD, words: good.to_vec() }, put(TRIED)];
        ops.extend(self.readers(threshold));
        ops.push(Op::Insert { slot: TRIED, code: CODE });
        ops.push(Op::Remove { slot: TRIED, code: CODE });
        ops.push(Op::Sub { slot: TRIED, rhs: GOOD, to: RESULT });
        ops.push(Op::Sub { slot: GOOD, rhs: TRIED, to: RESULT });
        ops.extend(self.surplus_readers());
        ops.push(Op::SubAssign { slot: TRIED, rhs: GOOD });
        ops.push(Op::SubAssign { slot: GOOD, rhs: TRIED });
        ops.extend([put(RESULT), Op::Sub { slot: GOOD, rhs: GOOD, to: RESULT }]);
        ops.extend([put(RESULT), Op::Deserialize { slot: RESULT, bytes }]);
        ops.extend([put(RESULT), Op::New { slot: RESULT, threshold }, Op::New { slot: RESULT, threshold: 0 }]);
        ops
    }

    /// Every call on the surplus of the words that are tried, with a buffer long enough, exactly full, one short, and none.
    fn surplus_readers(&self) -> Vec<Op> {
        let (slot, got) = (TRIED, self.sought());
        let rooms = [got.len() + 2, got.len(), got.len() - 1, 0];
        let mut ops = vec![Op::SignedCount { slot }, Op::Negate { slot, to: RESULT }];
        ops.extend(rooms.map(|room| Op::DecodeSurplus { slot, room, fill: FILL, got: got.clone() }));
        ops
    }

    /// The same on words given anew, and a good sketch negated into the words as the place of its result.
    fn surplus_calls(&self, good: &[u32], tried: &[u32]) -> Vec<Op> {
        let put = |slot, words: &[u32]| Op::Put { slot, words: words.to_vec() };
        let mut ops = vec![put(GOOD, good), put(TRIED, tried)];
        ops.extend(self.surplus_readers());
        ops.extend([put(RESULT, tried), Op::Negate { slot: GOOD, to: RESULT }]);
        ops.push(Op::Decode { slot: RESULT, room: MOST_WORDS, fill: FILL, log: self.sought() });
        ops
    }

    /// The words with each fault alone, with other counts, and with each word behind the sketch at the prime, which is
    /// no fault.
    fn spoilt(&self, words: &[u32]) -> Vec<Vec<u32>> {
        let (width, p, greatest) = (self.width, self.width.modulus, self.width.greatest());
        let with = |changes: &[(usize, u32)]| {
            let mut copy = words.to_vec();
            changes.iter().for_each(|&(at, number)| copy[at] = number);
            copy
        };
        let of_count = |count| {
            let mut copy = words.to_vec();
            width.put_count(&mut copy, count);
            copy
        };
        let threshold = words[THRESHOLD];
        let thresholds = [0, 33, 34, 256, width.half(), greatest].map(|t| with(&[(THRESHOLD, t)]));
        let marks = [2, 3, 256, width.half(), greatest].map(|mark| with(&[(width.has_last(), mark)]));
        let lasts = [(0, 0), (0, 1), (0, p), (1, 0), (1, p - 1), (1, p), (1, greatest)]
            .map(|(mark, last)| with(&[(width.has_last(), mark), (width.last(), last)]));
        let near = [threshold, threshold + 1].into_iter().flat_map(|count| [count, count.wrapping_neg()]);
        let counts = near.chain(COUNTS).map(of_count);
        let places =
            (width.sums()..words.len()).flat_map(|at| [p - 1, p, greatest].map(|number| with(&[(at, number)])));
        thresholds.into_iter().chain(marks).chain(lasts).chain(counts).chain(places).collect()
    }

    /// Every threshold at every length, and every fault at some thresholds; all again with a count below 0.
    fn words(&mut self) -> Vec<Op> {
        let mut ops = vec![Op::Put { slot: RESULT, words: vec![FILL; MOST_WORDS] }];
        for threshold in 1..=MAX_THRESHOLD {
            let (good, tried) = (self.sketch(threshold), self.sketch(threshold));
            let (over, below) = (self.below_zero(&good), self.below_zero(&tried));
            for length in 0..=MOST_WORDS {
                ops.extend(self.calls(&good, &tried[..length], threshold));
                ops.extend(self.surplus_calls(&over, &below[..length]));
            }
        }
        for threshold in [1, 2, 20, MAX_THRESHOLD] {
            let (good, tried) = (self.sketch(threshold), self.sketch(threshold));
            let (over, below) = (self.below_zero(&good), self.below_zero(&tried));
            for length in [self.width.words(threshold), self.width.words(threshold) + 2] {
                for words in self.spoilt(&tried[..length]) {
                    ops.extend(self.calls(&good, &words, threshold));
                }
                for words in self.spoilt(&below[..length]) {
                    ops.extend(self.surplus_calls(&over, &words));
                }
            }
        }
        ops
    }

    /// Each count at an edge taken past it both ways, and each minus each, and the calls on the surplus of what it is then.
    fn counts(&mut self) -> Vec<Op> {
        let words = self.sketch(2);
        let put = |slot, count| {
            let mut copy = words.clone();
            self.width.put_count(&mut copy, count);
            Op::Put { slot, words: copy }
        };
        let mut ops = vec![Op::Put { slot: RESULT, words: words.clone() }];
        for left in COUNTS {
            for step in [Op::Insert { slot: TRIED, code: CODE }, Op::Remove { slot: TRIED, code: CODE }] {
                ops.push(put(TRIED, left));
                for _ in 0..3 {
                    ops.push(step.clone());
                    ops.extend(self.surplus_readers());
                }
            }
            for right in COUNTS {
                ops.extend([put(TRIED, left), put(GOOD, right), Op::Sub { slot: TRIED, rhs: GOOD, to: RESULT }]);
                ops.push(Op::SubAssign { slot: TRIED, rhs: GOOD });
                ops.extend(self.surplus_readers());
            }
        }
        ops
    }

    /// At every threshold, every number of codes that are surplus up to one above it, listed among others.
    fn surplus(&mut self) -> Vec<Op> {
        let (width, slot) = (self.width, TRIED);
        let mut ops = vec![];
        for (threshold, size) in
            (1..=MAX_THRESHOLD).flat_map(|threshold| (0..=threshold + 1).map(move |n| (threshold, n)))
        {
            let codes: Vec<u32> = (0..size).map(|_| width.any(&mut self.rng)).collect();
            let got: Vec<u32> = codes.iter().rev().flat_map(|&code| [code, code ^ 1]).chain([CODE]).collect();
            let words = vec![FILL; width.words(threshold)];
            ops.extend([slot, RESULT].map(|slot| Op::Put { slot, words: words.clone() }));
            ops.push(Op::New { slot, threshold });
            ops.extend(codes.iter().map(|&code| Op::Remove { slot, code }));
            ops.extend([Op::SignedCount { slot }, Op::Negate { slot, to: RESULT }]);
            ops.push(Op::DecodeSurplus { slot, room: got.len(), fill: FILL, got: got.clone() });
            ops.push(Op::Decode { slot: RESULT, room: got.len(), fill: FILL, log: got });
        }
        ops
    }

    /// No last code and each of the first and the last residues as one; and each of these codes, and every code of the
    /// prime or more, removed.
    fn last_codes(&mut self) -> Vec<Op> {
        const NEAR: u32 = 20;
        let (width, p) = (self.width, self.width.modulus);
        let words = self.sketch(2)[..width.words(2)].to_vec();
        let put = |has, last| {
            let mut copy = words.clone();
            copy[width.has_last()..width.sums()].copy_from_slice(&[has, last]);
            Op::Put { slot: TRIED, words: copy }
        };
        let lasts: Vec<u32> = (0..=NEAR).chain(p - 1 - NEAR..p).collect();
        let starts: Vec<Op> = std::iter::once(put(0, 0)).chain(lasts.iter().map(|&last| put(1, last))).collect();
        let codes = || lasts.iter().copied().chain(p..=width.greatest());
        starts.iter().flat_map(|put| codes().flat_map(|code| [put.clone(), Op::Remove { slot: TRIED, code }])).collect()
    }

    /// A packet of a length whose sums are below the prime; the same with the prime, the greatest number below it and
    /// the greatest of all as each sum and as the last code, and with 255 in the bytes behind; bytes all 0 and all 255.
    fn packets_of(&mut self, length: usize) -> Vec<Vec<u8>> {
        let (width, p) = (self.width, self.width.modulus);
        let (head, size) = (width.head_bytes(), width.code_bytes());
        let sums: Vec<u32> = (0..length / size).map(|_| self.residue()).collect();
        let mut good = width.packet(self.rng.next() as u32, self.residue(), &sums);
        good.truncate(length);
        let mut packets = vec![good.clone(), vec![0; length], vec![255; length]];
        let places = (head - size..length).step_by(size).filter(|at| at + size <= length);
        for (at, code) in places.flat_map(|at| [p - 1, p, width.greatest()].map(|code| (at, code))) {
            packets.push(good.clone());
            packets.last_mut().unwrap()[at..at + size].copy_from_slice(&width.code(code));
        }
        let behind = length.saturating_sub(head) % size;
        good[length - behind..].fill(255);
        packets.push(good);
        packets
    }

    /// Packets of every length, read into as many words as they take, one fewer, and the most.
    fn packets(&mut self) -> Vec<Op> {
        let (width, slot) = (self.width, TRIED);
        let mut ops = vec![];
        for length in 0..=width.packet_bytes(MAX_THRESHOLD) + MORE_BYTES {
            let sums = length.saturating_sub(width.head_bytes()) / width.code_bytes();
            let rooms = [width.words(sums), width.words(sums) - 1, MOST_WORDS].map(|room| room.min(MOST_WORDS));
            for (k, bytes) in self.packets_of(length).into_iter().enumerate() {
                let rooms = if k == 0 { &rooms[..] } else { &rooms[2..] };
                for &room in rooms {
                    ops.push(Op::Put { slot, words: vec![FILL; room] });
                    ops.push(Op::Deserialize { slot, bytes: bytes.clone() });
                }
            }
        }
        ops
    }

    /// The value of coefficients, plainly, and with one reduction where the width has that call.
    fn values(&self, coeffs: Vec<u32>, x: u32) -> Vec<Op> {
        let plain = Op::Eval { x, coeffs: coeffs.clone() };
        let single = self.width.single_reduction.then_some(Op::EvalPrecompute { x, coeffs });
        std::iter::once(plain).chain(single).collect()
    }

    /// Every number of coefficients up to some above the greatest, at some codes; and each coefficient at fault alone.
    fn coefficients(&mut self) -> Vec<Op> {
        let (p, greatest) = (self.width.modulus, self.width.greatest());
        let mut ops = vec![];
        for count in 0..=MAX_THRESHOLD + 8 {
            let coeffs: Vec<u32> = (0..count).map(|_| self.residue()).collect();
            for x in [0, 1, 2, p - 1, p, greatest, self.width.any(&mut self.rng)] {
                ops.extend(self.values(coeffs.clone(), x));
                ops.extend(self.values(vec![p - 1; count], x));
            }
            for (at, number) in (0..count).flat_map(|at| [(at, p), (at, greatest)]) {
                let mut spoilt = coeffs.clone();
                spoilt[at] = number;
                ops.extend(self.values(spoilt, CODE));
            }
        }
        ops
    }

    /// The residue y at which x · y leaves the number r, for x from 1 below the prime.
    fn cofactor(&self, x: u32, r: u32) -> u32 {
        let p = self.width.modulus as u64;
        let halvings = (0..self.width.bits).rev().map(|bit| (p - 2) >> bit & 1);
        let inverse = halvings.fold(1, |power, odd| power * power % p * if odd == 1 { x as u64 } else { 1 } % p);
        (inverse * r as u64 % p) as u32
    }

    /// Products that leave each of the first and of the last residues, of many factors: there a product that is folded
    /// ends just below or just above the prime.
    fn products(&mut self) -> Vec<Op> {
        const LAST: u32 = 40;
        let mut ops = vec![];
        for near in 0..=LAST {
            for r in [near, self.width.modulus - 1 - near] {
                for _ in 0..100 {
                    let x = self.residue().max(1);
                    let y = self.cofactor(x, r);
                    ops.extend([Op::Mul(x, y), Op::Mul(y, x)]);
                }
            }
        }
        ops
    }

    /// Every code to the operations on one, to the power at some exponents, and as the exponent.
    fn every_code(&self) -> Vec<Op> {
        let exponents = [2, self.width.modulus - 1, self.width.greatest()];
        (0..=self.width.greatest())
            .flat_map(|code| {
                let mut ops = vec![Op::Reduce(code), Op::Neg(code), Op::Inv(code), Op::PowMultiplications(code)];
                ops.extend(exponents.map(|exponent| Op::Pow(code, exponent)));
                ops.push(Op::Pow(3, code));
                ops
            })
            .collect()
    }

    /// Every code inserted into one sketch, which takes the count into its second word, and then removed again.
    fn every_code_in_and_out(&self) -> Vec<Op> {
        let (slot, threshold) = (TRIED, 3);
        let codes = || 0..=self.width.greatest();
        let mut ops = vec![Op::Put { slot, words: vec![0; self.width.words(threshold)] }, Op::New { slot, threshold }];
        ops.extend(codes().map(|code| Op::Insert { slot, code }));
        ops.extend(codes().map(|code| Op::Remove { slot, code }));
        ops
    }
}

/// All of it, always the same at a width. Only at 16 bits are there few enough codes to try each.
pub fn sweep(width: &'static Width) -> Vec<Op> {
    let mut sweep = Sweep { width, rng: Rng::new(1) };
    let mut ops = [sweep.words(), sweep.counts(), sweep.packets(), sweep.coefficients(), sweep.products()].concat();
    ops.extend(sweep.last_codes());
    ops.extend(sweep.surplus());
    if width.bits == 16 {
        ops.extend(sweep.every_code());
        ops.extend(sweep.every_code_in_and_out());
    }
    ops
}
