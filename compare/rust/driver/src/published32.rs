//! The published 32-bit sketch, `PowerSumQuackU32`, as the oracle takes it.

use crate::op::Op;
use crate::oracle::Published;
use crate::residues;
use crate::width::{Width, BITS32};
use ours::{MAX_THRESHOLD, THRESHOLD};
use quack::arithmetic::ModularArithmetic;
use quack::{PowerSumQuack, PowerSumQuackU32, Quack};

/// Bytes whose ninth starts a 4-byte boundary: the Rust reads the sums through a pointer to 4-byte numbers.
struct Aligned {
    room: Vec<u32>,
    length: usize,
}

impl Aligned {
    /// A copy of bytes.
    fn of(bytes: &[u8]) -> Aligned {
        let mut made = Aligned { room: vec![0; bytes.len() / 4 + 1], length: bytes.len() };
        made.bytes().copy_from_slice(bytes);
        made
    }

    /// The bytes.
    fn bytes(&mut self) -> &mut [u8] {
        let start = self.room.as_mut_ptr() as *mut u8;
        unsafe { std::slice::from_raw_parts_mut(start, self.length) }
    }
}

impl Published for PowerSumQuackU32 {
    const WIDTH: &'static Width = &BITS32;
    const NAME: &'static str = "the unchanged Rust";

    /// Its table of inverses has 20 entries until it is told otherwise.
    fn configure() {
        quack::global_config_set_max_power_sum_threshold(MAX_THRESHOLD);
    }

    fn fresh(threshold: usize) -> Self {
        Quack::new(threshold)
    }

    /// Read from the words' packet, and freed of its last code by a subtraction of nothing.
    fn of(words: &[u32]) -> Self {
        let sketch = Self::read(&BITS32.packet_of(words, words[BITS32.last()], MAX_THRESHOLD));
        if words[BITS32.has_last()] == 1 {
            sketch
        } else {
            Quack::sub(&sketch, &Self::fresh(words[THRESHOLD] as usize))
        }
    }

    /// The Rust shows its sums in a packet alone, and writes one only where there is a last code: the code 0, whose
    /// powers are 0, gives a copy one without touching a sum.
    fn words(&self) -> Vec<u32> {
        let mut copy = self.clone();
        Quack::insert(&mut copy, 0);
        let mut packet = vec![0; BITS32.packet_bytes(self.threshold())];
        copy.serialize(&mut packet);
        let mark = self.last_value().is_some() as u32;
        let head = [self.threshold() as u32, self.count(), mark, self.last_value().unwrap_or(0)];
        [&head[..], &BITS32.sums_in(&packet)].concat()
    }

    fn insert(&mut self, code: u32) {
        Quack::insert(self, code);
    }

    fn remove(&mut self, code: u32) {
        Quack::remove(self, code);
    }

    fn sub_assign(&mut self, rhs: &Self) {
        Quack::sub_assign(self, rhs);
    }

    fn sub(&self, rhs: &Self) -> Self {
        Quack::sub(self, rhs)
    }

    fn to_coeffs(&self) -> Vec<u32> {
        PowerSumQuack::to_coeffs(self).iter().map(|a| a.value()).collect()
    }

    fn decode_with_log(&self, log: &[u32]) -> Vec<u32> {
        PowerSumQuack::decode_with_log(self, log)
    }

    fn write(&self, buffer: &mut [u8], hint: Option<usize>) -> usize {
        match hint {
            None => self.serialize(buffer),
            Some(hint) => self.serialize_with_hint(buffer, hint),
        }
    }

    fn read(bytes: &[u8]) -> Self {
        PowerSumQuackU32::deserialize(Aligned::of(bytes).bytes())
    }

    fn eval(coeffs: &[u32], x: u32) -> u32 {
        residues::value::<u32>(coeffs, x)
    }

    fn eval_precompute(_: &[u32], _: u32) -> u32 {
        unreachable!("no such call at 32 bits")
    }

    fn field(op: &Op) -> Vec<u64> {
        residues::field::<u32>(op)
    }
}
