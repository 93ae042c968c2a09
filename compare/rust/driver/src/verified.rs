//! The verified side: each operation through the C boundary, on memory with guards around everything that is lent.

use crate::calls::Calls;
use crate::op::Op;
use ours::{Number, Power, Value};

/// Places before and after each slot and each buffer that no call may touch.
const GUARD: usize = 5;
const GUARD_BYTE: u8 = 0xa7;

/// Places to lend, between guards.
struct Guarded<T> {
    places: Vec<T>,
    guard: T,
}

impl<T: Copy + PartialEq> Guarded<T> {
    /// A copy of places, with guards around it.
    fn of(lent: &[T], guard: T) -> Guarded<T> {
        Guarded { places: [&[guard; GUARD], lent, &[guard; GUARD]].concat(), guard }
    }

    /// Where the places to lend stand.
    fn range(&self) -> std::ops::Range<usize> {
        GUARD..self.places.len() - GUARD
    }

    /// The places.
    fn lent(&self) -> &[T] {
        &self.places[self.range()]
    }

    /// The places, to be written.
    fn lent_mut(&mut self) -> &mut [T] {
        let range = self.range();
        &mut self.places[range]
    }

    /// Whether the guards are as they were.
    fn intact(&self) -> bool {
        let range = self.range();
        self.places[..range.start].iter().chain(&self.places[range.end..]).all(|&place| place == self.guard)
    }
}

/// The slots of the verified side.
pub struct Verified<C: Calls> {
    slots: Vec<Guarded<C::Word>>,
    /// Whether some call wrote outside what it was lent.
    pub strayed: bool,
}

/// A number of an operation, as the functions take it.
fn number<C: Calls>(number: u32) -> C::Word {
    C::Word::try_from(number).ok().expect("a number of the width")
}

/// A list of numbers, as the functions take it.
fn numbers<C: Calls>(list: &[u32]) -> Vec<C::Word> {
    list.iter().map(|&each| number::<C>(each)).collect()
}

/// Words with guards around them.
fn guarded<C: Calls>(words: &[C::Word]) -> Guarded<C::Word> {
    Guarded::of(words, C::GUARD)
}

/// The answer of a call that gives a value.
fn value_in<Word: Into<u64>>(value: Value<Word>) -> Vec<u64> {
    vec![value.refusal as u64, value.value.into()]
}

impl<C: Calls> Verified<C> {
    /// As many slots, of no words.
    pub fn new(slots: usize) -> Self {
        Verified { slots: (0..slots).map(|_| guarded::<C>(&[])).collect(), strayed: false }
    }

    /// The words of a slot.
    fn words(&self, slot: usize) -> &[C::Word] {
        self.slots[slot].lent()
    }

    /// Whether a slot is a slice of these words.
    pub fn holds(&self, slot: usize, words: &[u32]) -> bool {
        self.words(slot).iter().map(|&word| word.into()).eq(words.iter().map(|&word| word as u64))
    }

    /// A call that changes a slot, given the other slots too: the refusal, and the slot's words.
    fn change(&mut self, slot: usize, call: impl FnOnce(&Self, &mut [C::Word]) -> u32) -> Vec<u64> {
        let mut changed = std::mem::replace(&mut self.slots[slot], guarded::<C>(&[]));
        let refusal = call(self, changed.lent_mut());
        self.slots[slot] = changed;
        std::iter::once(refusal as u64).chain(self.words(slot).iter().map(|&word| word.into())).collect()
    }

    /// Lends a buffer of `room` places that hold `fill`, and adds what it holds then to the answer.
    fn lend<T: Copy + PartialEq + Into<u64>>(
        &mut self,
        room: usize,
        fill: T,
        guard: T,
        call: impl FnOnce(&Self, &mut [T]) -> Number,
    ) -> Vec<u64> {
        let mut buffer = Guarded::of(&vec![fill; room], guard);
        let Number { refusal, value } = call(self, buffer.lent_mut());
        self.strayed |= !buffer.intact();
        let mut answer = vec![refusal as u64, value as u64];
        answer.extend(buffer.lent().iter().map(|&place| place.into()));
        answer
    }

    /// The same with places for words.
    fn lend_words(&mut self, room: usize, fill: u32, call: impl FnOnce(&Self, &mut [C::Word]) -> Number) -> Vec<u64> {
        self.lend(room, number::<C>(fill), C::GUARD, call)
    }

    /// Does an operation; its answers.
    pub fn answer(&mut self, op: &Op) -> Vec<u64> {
        let answer = self.call(op);
        self.strayed |= !self.slots.iter().all(Guarded::intact);
        answer
    }

    /// The operations on slots that are lent no buffer.
    fn call(&mut self, op: &Op) -> Vec<u64> {
        match op {
            Op::New { slot, threshold } => self.change(*slot, |_, words| C::new(*threshold, words)),
            Op::Put { slot, words } => {
                self.slots[*slot] = guarded::<C>(&numbers::<C>(words));
                vec![]
            }
            Op::WellFormed { slot } => vec![C::well_formed(self.words(*slot)) as u64],
            Op::Insert { slot, code } => self.change(*slot, |_, words| C::insert(words, number::<C>(*code))),
            Op::Remove { slot, code } => self.change(*slot, |_, words| C::remove(words, number::<C>(*code))),
            Op::SubAssign { slot, rhs } if slot == rhs => {
                let copy = self.words(*rhs).to_vec();
                self.change(*slot, |_, words| C::sub_assign(words, &copy))
            }
            Op::SubAssign { slot, rhs } => self.change(*slot, |side, words| C::sub_assign(words, side.words(*rhs))),
            Op::Sub { slot, rhs, to } => {
                self.change(*to, |side, words| C::sub(side.words(*slot), side.words(*rhs), words))
            }
            Op::Negate { slot, to } => self.change(*to, |side, words| C::negate(side.words(*slot), words)),
            Op::SignedCount { slot } => {
                let count = C::signed_count(self.words(*slot));
                vec![(count < 0) as u64, count.unsigned_abs() as u64]
            }
            Op::Deserialize { slot, bytes } => self.change(*slot, |_, words| C::deserialize(bytes, words)),
            _ => self.lent(op),
        }
    }

    /// The operations that are lent a buffer.
    fn lent(&mut self, op: &Op) -> Vec<u64> {
        match *op {
            Op::ToCoeffs { slot, room, fill } => {
                self.lend_words(room, fill, |side, buffer| C::to_coeffs(side.words(slot), buffer))
            }
            Op::Decode { slot, room, fill, ref log } => {
                let log = numbers::<C>(log);
                self.lend_words(room, fill, |side, buffer| C::decode_with_log(side.words(slot), &log, buffer))
            }
            Op::DecodeSurplus { slot, room, fill, ref got } => {
                let got = numbers::<C>(got);
                self.lend_words(room, fill, |side, buffer| C::decode_surplus_with_log(side.words(slot), &got, buffer))
            }
            Op::Serialize { slot, room, fill } => {
                self.lend(room, fill, GUARD_BYTE, |side, buffer| C::serialize(side.words(slot), buffer))
            }
            Op::SerializeWithHint { slot, hint, room, fill } => {
                self.lend(room, fill, GUARD_BYTE, |side, buffer| C::serialize_with_hint(side.words(slot), buffer, hint))
            }
            _ => Self::field(op),
        }
    }

    /// The operations that no slot has a part in.
    fn field(op: &Op) -> Vec<u64> {
        let one = |number: u32| vec![number as u64];
        let n = number::<C>;
        match *op {
            Op::Eval { x, ref coeffs } => value_in(C::eval(&numbers::<C>(coeffs), n(x))),
            Op::EvalPrecompute { x, ref coeffs } => value_in(C::eval_precompute(&numbers::<C>(coeffs), n(x))),
            Op::Reduce(a) => one(C::field_reduce(n(a))),
            Op::Add(a, b) => one(C::field_add(n(a), n(b))),
            Op::FieldSub(a, b) => one(C::field_sub(n(a), n(b))),
            Op::Mul(a, b) => one(C::field_mul(n(a), n(b))),
            Op::Neg(a) => one(C::field_neg(n(a))),
            Op::Inv(a) => one(C::field_inv(n(a))),
            Op::Pow(a, exponent) => {
                let Power { value, multiplications } = C::field_pow(n(a), n(exponent));
                vec![value.into(), multiplications as u64]
            }
            Op::PowMultiplications(exponent) => one(C::field_pow_multiplications(n(exponent))),
            _ => unreachable!("an operation on slots"),
        }
    }
}
