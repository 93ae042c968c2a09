//! The operations of a run: the opening, and then from a seed rounds of two shapes.
//!
//! - A *history*: fresh sketches, then any calls in any order on them, up to some thousands; in some more is removed than
//!   inserted, so that counts fall below 0.
//! - A *bag*: the use that the sketch is made for. A log goes into one sketch and what arrived into a second, which lacks
//!   some of it, has others too many, or both; the second is written, perhaps with a hint, and read again; the difference
//!   is decoded with the log, and its surplus with what arrived.
//!
//! Codes, packets, rooms and the lengths of slices are drawn at each edge about as often as anywhere else. A sketch is
//! made in words that hold anything before.

use crate::boundary;
use crate::cases;
use crate::op::{Op, LONGEST};
use crate::rng::Rng;
use crate::width::{word, Width};
use ours::{MAX_THRESHOLD, THRESHOLD};
use std::collections::VecDeque;

/// How large a run's rounds and operations are.
#[derive(Clone, Copy)]
pub struct Sizes {
    /// At least 3: a subtraction goes from two slots to a third.
    pub slots: usize,
    /// How many rounds in a hundred are bags.
    pub bags: usize,
    /// The longest history.
    pub history: usize,
    /// The longest log.
    pub log: usize,
    /// Whether lengths and thresholds of 2^32 and more occur, and every length and fault of words is tried.
    pub wide: bool,
    /// How many thresholds in a hundred are at most 6, which keeps a script short.
    pub small: usize,
}

/// What a round has planned: an operation, or the reading of the packet that a slot's sketch has by then.
enum Step {
    Do(Op),
    Carry { from: usize, to: usize, hint: usize },
}

/// The words that stand in a slot.
pub type Slots<'a> = dyn Fn(usize) -> &'a [u32] + 'a;

/// Makes the operations of a run, one after another.
pub struct Generator {
    width: &'static Width,
    rng: Rng,
    sizes: Sizes,
    waiting: VecDeque<Step>,
    /// Operations left in the history that is under way, and how many of a hundred moves in it are removals.
    left: usize,
    removals: usize,
    /// Codes in use, so that a removal meets an insertion and a log a root.
    recent: Vec<u32>,
}

impl Generator {
    /// A run at a width that a seed decides.
    pub fn new(width: &'static Width, seed: u64, sizes: Sizes) -> Generator {
        let mut opening = cases::opening(width);
        if sizes.wide {
            opening.extend(boundary::sweep(width));
        }
        let waiting = opening.into_iter().map(Step::Do).collect();
        Generator { width, rng: Rng::new(seed), sizes, waiting, left: 0, removals: 0, recent: Vec::new() }
    }

    /// The next operation. The slots' words are looked at so that rooms and packets fall on the edges.
    pub fn next(&mut self, slots: &Slots) -> Op {
        if self.waiting.is_empty() && self.left == 0 {
            self.begin_round();
        }
        match self.waiting.pop_front() {
            Some(Step::Do(op)) => op,
            Some(Step::Carry { from, to, hint }) => {
                let words = slots(from);
                let last = word(words, self.width.last());
                Op::Deserialize { slot: to, bytes: self.width.packet_of(words, last, hint) }
            }
            None => {
                self.left -= 1;
                self.any(slots)
            }
        }
    }

    /// An operation after those that wait.
    fn plan(&mut self, op: Op) {
        self.waiting.push_back(Step::Do(op));
    }

    /// Words of any numbers, as many as a sketch of the threshold takes, more, or at times fewer.
    fn plan_words(&mut self, slot: usize, threshold: usize) {
        let words = (0..self.length(threshold)).map(|_| self.number()).collect();
        self.plan(Op::Put { slot, words });
    }

    /// A fresh sketch in words of any numbers.
    fn plan_new(&mut self, slot: usize, threshold: usize) {
        self.plan_words(slot, threshold);
        self.plan(Op::New { slot, threshold });
    }

    /// A bag, or fresh sketches and the length of a history on them.
    fn begin_round(&mut self) {
        self.recent.clear();
        if self.rng.percent(self.sizes.bags) {
            self.bag();
            return;
        }
        let shared = self.threshold();
        let agree = self.rng.percent(60);
        for slot in 0..self.sizes.slots {
            let threshold = if agree { shared } else { self.threshold() };
            self.plan_new(slot, threshold);
        }
        // Short histories keep counts within the threshold; a few long ones wrap sums and counts many times.
        let most = match self.rng.below(100) {
            0 => self.sizes.history,
            1..=30 => self.sizes.history.min(600),
            _ => self.sizes.history.min(60),
        };
        self.left = self.rng.range(1, most);
        self.removals = self.rng.pick(&[20, 33, 33, 50, 67, 80]);
    }

    // ---- the parts of an operation

    /// A threshold in range.
    fn threshold(&mut self) -> usize {
        if self.rng.percent(self.sizes.small) {
            self.rng.range(1, 6)
        } else if self.rng.percent(20) {
            self.rng.pick(&[1, 2, 3, 20, 21, 31, 32])
        } else {
            self.rng.range(1, MAX_THRESHOLD)
        }
    }

    /// A number of the width: at an edge, small, or any.
    fn number(&mut self) -> u32 {
        if self.rng.percent(40) {
            self.rng.pick(&self.width.edges)
        } else if self.rng.percent(30) {
            self.rng.below(100) as u32
        } else {
            self.width.any(&mut self.rng)
        }
    }

    /// A code, often one in use.
    fn code(&mut self) -> u32 {
        if !self.recent.is_empty() && self.rng.percent(40) {
            let code = self.rng.below(self.recent.len());
            return self.recent[code];
        }
        let code = self.number();
        if self.recent.len() == 64 {
            let old = self.rng.below(64);
            self.recent.swap_remove(old);
        }
        self.recent.push(code);
        code
    }

    /// Any slot.
    fn slot(&mut self) -> usize {
        self.rng.below(self.sizes.slots)
    }

    /// The first slot that is neither of two.
    fn another(&self, one: usize, other: usize) -> usize {
        (0..self.sizes.slots).find(|&slot| slot != one && slot != other).unwrap()
    }

    /// A room around what is needed: exactly full, one short, one more, none, or some more.
    fn room(&mut self, need: usize) -> usize {
        match self.rng.below(10) {
            0..=3 => need,
            4 | 5 => need.saturating_sub(1),
            6 => need + 1,
            7 => self.rng.below(need + 1),
            8 => 0,
            _ => need + self.rng.below(9),
        }
    }

    /// A hint around a threshold, or far above it.
    fn hint(&mut self, threshold: usize) -> usize {
        match self.rng.below(8) {
            0 => 0,
            1 => 1,
            2 => threshold.saturating_sub(1),
            3 => threshold,
            4 => threshold + 1,
            5 if self.sizes.wide => self.rng.pick(&[1 << 16, (1 << 16) + 1, 1 << 32, (1 << 32) + 1, usize::MAX]),
            _ => self.rng.below(40),
        }
    }

    /// A log, mostly short.
    fn log(&mut self) -> Vec<u32> {
        let length = if self.rng.percent(10) { self.rng.below(self.sizes.log + 1) } else { self.rng.below(13) };
        (0..length).map(|_| self.code()).collect()
    }

    /// The length of a slice for a sketch of a threshold: mostly its words or more, one time in 20 fewer.
    fn length(&mut self, threshold: usize) -> usize {
        let need = self.width.words(threshold);
        match self.rng.below(40) {
            0..=15 => need,
            16..=21 => need + 1,
            22..=29 => self.rng.range(need, LONGEST),
            30..=33 => self.width.words(MAX_THRESHOLD),
            34..=37 => LONGEST,
            38 => need - 1,
            _ => self.rng.below(need),
        }
    }

    /// Words of a sketch with numbers of any kind, any numbers behind them, then perhaps a fault that makes them none.
    fn words(&mut self) -> Vec<u32> {
        let (width, threshold) = (self.width, self.threshold());
        let (has_last, last, need) = (width.has_last(), width.last(), width.words(threshold));
        let mut words: Vec<u32> = (0..LONGEST).map(|_| self.number()).collect();
        words[THRESHOLD] = threshold as u32;
        let near = self.rng.range(0, threshold + 1) as u32;
        match self.rng.below(10) {
            0..=3 => width.put_count(&mut words, near),
            4..=6 => width.put_count(&mut words, near.wrapping_neg()),
            7 => width.put_count(&mut words, self.rng.pick(&cases::COUNTS)),
            _ => {}
        }
        (words[has_last], words[last]) = if self.rng.percent(70) { (1, words[last] % width.modulus) } else { (0, 0) };
        for sum in &mut words[width.sums()..need] {
            *sum %= width.modulus;
        }
        words.truncate(self.length(threshold));
        if self.rng.percent(40) && words.len() >= need {
            self.spoil(&mut words, threshold);
        }
        words
    }

    /// A fault, or a threshold of one more or less, with which the words say another sketch or none.
    fn spoil(&mut self, words: &mut Vec<u32>, threshold: usize) {
        let width = self.width;
        let (p, half, greatest) = (width.modulus, width.half(), width.greatest());
        let (has_last, last) = (width.has_last(), width.last());
        let beyond = self.rng.pick(&[p, p + 1, greatest]);
        match self.rng.below(7) {
            0 => words[THRESHOLD] = self.rng.pick(&[0, 33, 34, 256, half, greatest]),
            1 => words[width.sums() + self.rng.below(threshold)] = beyond,
            2 => (words[has_last], words[last]) = (1, beyond),
            3 => words[has_last] = self.rng.pick(&[2, 3, 256, half, greatest]),
            4 => (words[has_last], words[last]) = (0, self.rng.pick(&[1, p, greatest])),
            5 => words[THRESHOLD] = self.rng.pick(&[threshold - 1, threshold + 1]) as u32,
            _ => words.truncate(self.rng.below(width.words(threshold))),
        }
    }

    /// A packet: that of a slot or one of its own, whole, cut, longer, with a damaged byte, or any bytes.
    fn packet(&mut self, slots: &Slots) -> Vec<u8> {
        if self.rng.percent(10) {
            let length = self.rng.below(self.width.code_bytes() * MAX_THRESHOLD + 20);
            return (0..length).map(|_| self.rng.next() as u8).collect();
        }
        let slot = self.slot();
        let words = if self.rng.percent(60) { slots(slot).to_vec() } else { self.words() };
        let last = if self.rng.percent(20) { self.number() } else { word(&words, self.width.last()) };
        let mut bytes = self.width.packet_of(&words, last, MAX_THRESHOLD);
        self.damage(&mut bytes);
        bytes
    }

    /// One time in four a packet stays whole; else it is cut, made longer, or changed.
    fn damage(&mut self, bytes: &mut Vec<u8>) {
        let length = bytes.len();
        let (head, size) = (self.width.head_bytes(), self.width.code_bytes());
        let full = self.width.packet_bytes(MAX_THRESHOLD);
        match self.rng.below(12) {
            0 => bytes.truncate(self.rng.below(length + 1)),
            1 => bytes.truncate(self.rng.below(head + size + 1)),
            2 => bytes.truncate(length - 1),
            3 => bytes.extend((0..self.rng.range(1, 3)).map(|k| k as u8)),
            4 => bytes.extend([7, 7, 7, 7]),
            5 => {
                let further = self.rng.pick(&[0, size - 1, size, 2 * size - 1, 2 * size]);
                bytes.resize(full + further, 3);
            }
            6 => bytes[self.rng.below(length)] ^= 1 << self.rng.below(8),
            7 => bytes[self.rng.below(length)] = self.rng.next() as u8,
            8 if length >= head + size => {
                let at = head + size * self.rng.below((length - head) / size);
                bytes[at..at + size].copy_from_slice(&self.width.code(self.number()));
            }
            _ => {}
        }
    }

    // ---- the operations

    /// Any operation.
    fn any(&mut self, slots: &Slots) -> Op {
        let slot = self.slot();
        let words = slots(slot);
        let threshold = (word(words, THRESHOLD) as usize).min(MAX_THRESHOLD);
        let count = (self.width.count(words) as usize).min(threshold);
        match self.rng.below(100) {
            0..=39 if self.rng.percent(self.removals) => Op::Remove { slot, code: self.code() },
            0..=39 => Op::Insert { slot, code: self.code() },
            40..=43 => Op::SubAssign { slot, rhs: self.slot() },
            44..=47 => {
                let rhs = self.slot();
                Op::Sub { slot, rhs, to: self.another(slot, rhs) }
            }
            48..=50 => Op::Negate { slot, to: self.another(slot, slot) },
            51 | 52 => Op::WellFormed { slot },
            53..=55 => Op::SignedCount { slot },
            56..=59 => Op::ToCoeffs { slot, room: self.room(count), fill: self.number() },
            60..=63 => self.evaluation(),
            64..=67 => {
                let log = self.log();
                Op::Decode { slot, room: self.room(log.len()), fill: self.number(), log }
            }
            68..=72 => {
                let got = self.log();
                Op::DecodeSurplus { slot, room: self.room(got.len()), fill: self.number(), got }
            }
            73..=75 => {
                let room = self.room(self.width.packet_bytes(threshold));
                Op::Serialize { slot, room, fill: self.rng.next() as u8 }
            }
            76..=78 => {
                let hint = self.hint(threshold);
                let room = self.room(self.width.packet_bytes(threshold.min(hint)));
                Op::SerializeWithHint { slot, hint, room, fill: self.rng.next() as u8 }
            }
            79..=82 => Op::Deserialize { slot, bytes: self.packet(slots) },
            83 | 84 => Op::New { slot, threshold: self.any_threshold() },
            85..=87 => Op::Put { slot, words: self.words() },
            _ => self.field(),
        }
    }

    /// A threshold, in range or not.
    fn any_threshold(&mut self) -> usize {
        if self.rng.percent(60) {
            return self.threshold();
        }
        if self.sizes.wide && self.rng.percent(30) {
            // Thresholds that a cast to 16 or to 32 bits would bring back into range.
            return self.rng.pick(&[(1 << 16) + 5, 1 << 32, (1 << 32) + 5, (1 << 63) + 20, usize::MAX]);
        }
        self.rng.pick(&[0, 33, 34, 64, 256, 1 << 16])
    }

    /// The value of coefficients, few or many, perhaps one of them at fault.
    fn evaluation(&mut self) -> Op {
        let length = self.rng.pick(&[0, 1, 1, 2, 3, 5, 8, 20, 31, 32, 33, 40]);
        let (p, greatest) = (self.width.modulus, self.width.greatest());
        let mut coeffs: Vec<u32> = (0..length).map(|_| self.number() % p).collect();
        if length > 0 && self.rng.percent(15) {
            coeffs[self.rng.below(length)] = self.rng.pick(&[p, p + 1, greatest]);
        }
        let x = self.code();
        if self.width.single_reduction && self.rng.percent(50) {
            return Op::EvalPrecompute { x, coeffs };
        }
        Op::Eval { x, coeffs }
    }

    /// An operation on codes.
    fn field(&mut self) -> Op {
        let (a, b) = (self.number(), self.number());
        match self.rng.below(8) {
            0 => Op::Reduce(a),
            1 => Op::Add(a, b),
            2 => Op::FieldSub(a, b),
            3 => Op::Mul(a, b),
            4 => Op::Neg(a),
            5 => Op::Inv(a),
            6 => Op::Pow(a, b),
            _ => Op::PowMultiplications(a),
        }
    }

    /// How many codes of a bag did not arrive, and how many are too many: about up to the threshold of the one, of the
    /// other, or of both.
    fn missing_and_surplus(&mut self, threshold: usize) -> (usize, usize) {
        let most = (threshold + 1).min(self.sizes.log);
        let (missing, surplus) = (self.rng.range(0, most), self.rng.range(0, most));
        match self.rng.below(10) {
            0..=4 => (missing, 0),
            5..=8 => (0, surplus),
            _ => (missing, surplus),
        }
    }

    /// Slot 0 takes the log, slot 1 what arrived; slot 2 their difference.
    fn bag(&mut self) {
        let threshold = self.threshold();
        let arrived_threshold = if self.rng.percent(25) { self.threshold() } else { threshold };
        self.plan_new(0, threshold);
        self.plan_new(1, arrived_threshold);
        self.plan_words(2, threshold.min(arrived_threshold));
        let (missing, surplus) = self.missing_and_surplus(threshold);
        let length = self.rng.range(missing, (missing + 40).min(self.sizes.log));
        let log: Vec<u32> = (0..length).map(|_| self.code()).collect();
        let more: Vec<u32> = (0..surplus).map(|_| self.code()).collect();
        let got = [&more, &log[missing..]].concat();
        for (slot, codes) in [(0, &log), (1, &got)] {
            codes.iter().for_each(|&code| self.plan(Op::Insert { slot, code }));
        }
        self.write_and_carry(arrived_threshold);
        self.plan(Op::Sub { slot: 0, rhs: 1, to: 2 });
        self.decode_both_ways(2, missing, &log, &got);
        self.plan(Op::SubAssign { slot: 0, rhs: 1 });
        self.decode_both_ways(0, missing, &log, &got);
        self.plan(Op::Negate { slot: 2, to: 1 });
        self.decode_both_ways(1, surplus, &got, &log);
    }

    /// Slot 1 written, without a hint and with one, and perhaps replaced by what its packet reads as.
    fn write_and_carry(&mut self, threshold: usize) {
        let hint = self.hint(threshold);
        let fill = self.rng.next() as u8;
        let room = self.room(self.width.packet_bytes(threshold));
        self.plan(Op::Serialize { slot: 1, room, fill });
        let room = self.room(self.width.packet_bytes(threshold.min(hint)));
        self.plan(Op::SerializeWithHint { slot: 1, hint, room, fill });
        if self.rng.percent(50) {
            self.waiting.push_back(Step::Carry { from: 1, to: 1, hint });
        }
    }

    /// The signed count, coefficients and lists of a slot: what it has of the log, with the log as it stands and turned
    /// round with one code more, and its surplus, with the got codes likewise.
    fn decode_both_ways(&mut self, slot: usize, missing: usize, log: &[u32], got: &[u32]) {
        let fill = self.number();
        let room = self.room(missing);
        self.plan(Op::ToCoeffs { slot, room, fill });
        self.plan(Op::SignedCount { slot });
        let room = if self.rng.percent(80) { log.len() } else { self.room(log.len()) };
        self.plan(Op::Decode { slot, room, fill, log: log.to_vec() });
        let log = self.turned(log);
        self.plan(Op::Decode { slot, room: log.len(), fill, log });
        let room = if self.rng.percent(80) { got.len() } else { self.room(got.len()) };
        self.plan(Op::DecodeSurplus { slot, room, fill, got: got.to_vec() });
        let got = self.turned(got);
        self.plan(Op::DecodeSurplus { slot, room: got.len(), fill, got });
    }

    /// Codes turned round, and one more.
    fn turned(&mut self, codes: &[u32]) -> Vec<u32> {
        let mut turned: Vec<u32> = codes.iter().rev().copied().collect();
        turned.push(self.code());
        turned
    }
}
