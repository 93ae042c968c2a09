//! The widths: all that differs between them, in one table, and what follows from it.

use crate::rng::Rng;
use ours::{MAX_THRESHOLD, THRESHOLD};

/// A width of codes. A word and an exponent have as many bits as a code; numbers are held in 32 bits at every width.
pub struct Width {
    pub bits: usize,
    pub modulus: u32,
    /// What the numbers of its operations have above those at 32 bits.
    pub kinds: usize,
    /// Whether it has `eval_precompute`.
    pub single_reduction: bool,
    /// Numbers at which something changes, drawn as often as all others.
    pub edges: [u32; 16],
}

/// The prime at 32 bits, and the one at 16 bits.
const P: u32 = ours::width32::MODULUS;
const Q: u32 = ours::width16::MODULUS as u32;

/// The 32-bit width.
pub static BITS32: Width = Width {
    bits: 32,
    modulus: P,
    kinds: 0,
    single_reduction: false,
    edges: [0, 1, 2, 3, 4, 5, P - 2, P - 1, P, P + 1, P + 2, P + 3, P + 4, u32::MAX / 2, 1 << 31, 65535],
};

/// The 16-bit width.
pub static BITS16: Width = Width {
    bits: 16,
    modulus: Q,
    kinds: 100,
    single_reduction: true,
    edges: [0, 1, 2, 3, 13, 14, 15, Q - 2, Q - 1, Q, Q + 1, Q + 13, Q + 14, 32767, 32768, 256],
};

/// The bytes of a count in a packet.
const COUNT_BYTES: usize = 4;

/// The word of the count, or of its lowest part.
const COUNT: usize = THRESHOLD + 1;

/// The number in a word, 0 where there are fewer words.
pub fn word(words: &[u32], at: usize) -> u32 {
    words.get(at).copied().unwrap_or(0)
}

impl Width {
    /// The greatest code.
    pub fn greatest(&self) -> u32 {
        u32::MAX >> (32 - self.bits)
    }

    /// The code with the highest bit alone.
    pub fn half(&self) -> u32 {
        1 << (self.bits - 1)
    }

    /// Any code.
    pub fn any(&self, rng: &mut Rng) -> u32 {
        rng.next() as u32 & self.greatest()
    }

    /// The words of a count.
    fn count_words(&self) -> usize {
        32 / self.bits
    }

    /// The word that is 1 where there is a last code.
    pub fn has_last(&self) -> usize {
        COUNT + self.count_words()
    }

    /// The word of the last code.
    pub fn last(&self) -> usize {
        self.has_last() + 1
    }

    /// The word of the first sum.
    pub fn sums(&self) -> usize {
        self.last() + 1
    }

    /// The words of a sketch of a threshold.
    pub fn words(&self, threshold: usize) -> usize {
        self.sums() + threshold
    }

    /// The count in words, with 0 for parts that are not there.
    pub fn count(&self, words: &[u32]) -> u32 {
        (0..self.count_words()).fold(0, |count, part| count | word(words, COUNT + part) << (self.bits * part))
    }

    /// The count in words as a signed number of 32 bits; 0 where there are fewer words than stand before the sums.
    pub fn signed_count(&self, words: &[u32]) -> i32 {
        if words.len() < self.sums() {
            return 0;
        }
        self.count(words) as i32
    }

    /// Puts a count into words.
    pub fn put_count(&self, words: &mut [u32], count: u32) {
        for part in 0..self.count_words() {
            words[COUNT + part] = count >> (self.bits * part) & self.greatest();
        }
    }

    /// The bytes of a code and of a sum in a packet.
    pub fn code_bytes(&self) -> usize {
        self.bits / 8
    }

    /// The bytes of a packet before its sums.
    pub fn head_bytes(&self) -> usize {
        COUNT_BYTES + self.code_bytes()
    }

    /// The bytes of a packet of as many sums.
    pub fn packet_bytes(&self, sums: usize) -> usize {
        self.head_bytes() + self.code_bytes() * sums
    }

    /// The bytes of a code, the lowest first.
    pub fn code(&self, code: u32) -> Vec<u8> {
        code.to_le_bytes()[..self.code_bytes()].to_vec()
    }

    /// A packet of these numbers.
    pub fn packet(&self, count: u32, last: u32, sums: &[u32]) -> Vec<u8> {
        let codes = [&[last], sums].concat();
        count.to_le_bytes().into_iter().chain(codes.into_iter().flat_map(|code| self.code(code))).collect()
    }

    /// The packet of words with the first `hint` sums at most, and a last code of its own.
    pub fn packet_of(&self, words: &[u32], last: u32, hint: usize) -> Vec<u8> {
        let sums = (word(words, THRESHOLD) as usize).min(MAX_THRESHOLD).min(hint);
        let first = self.sums().min(words.len());
        let end = self.words(sums).min(words.len());
        self.packet(self.count(words), last, &words[first..end])
    }

    /// The number that the bytes of a code say.
    pub fn code_in(&self, bytes: &[u8]) -> u32 {
        bytes.iter().rev().fold(0, |number, &byte| number << 8 | byte as u32)
    }

    /// The sums in a packet's bytes, which has its head.
    pub fn sums_in(&self, bytes: &[u8]) -> Vec<u32> {
        bytes[self.head_bytes()..].chunks_exact(self.code_bytes()).map(|sum| self.code_in(sum)).collect()
    }
}
