//! The published insertion's steps modulo a prime that the compiler cannot see, for their times alone: each product is
//! reduced by the processor's own division, as where a compiler makes no multiplications of a remainder.
use crate::mixed;
use ::ours::width32::MODULUS;
use std::hint::black_box;

/// The prime, as a number that may be any.
pub fn hidden_modulus() -> u64 {
    black_box(MODULUS as u64)
}

/// The product of two numbers modulo p.
pub fn product(a: u32, b: u32, p: u64) -> u32 {
    (a as u64 * b as u64 % p) as u32
}

/// A number below 2p modulo p, by a comparison.
fn once_less(n: u64, p: u64) -> u32 {
    (if n < p { n } else { n - p }) as u32
}

/// As many sums as the threshold, the count, and the residue of the last code.
pub struct Divided {
    sums: Vec<u32>,
    count: u32,
    last: Option<u32>,
    modulus: u64,
}

impl Divided {
    pub fn new(threshold: usize) -> Self {
        Self { sums: vec![0; threshold], count: 0, last: None, modulus: hidden_modulus() }
    }

    /// Sums grow by a running product, with one product less than there are sums.
    pub fn insert(&mut self, code: u32) {
        let p = self.modulus;
        let x = once_less(code as u64, p);
        let grown = |sum: u32, power: u32| once_less(sum as u64 + power as u64, p);
        let Some((highest, lower)) = self.sums.split_last_mut() else { return };
        let mut power = x;
        for sum in lower {
            *sum = grown(*sum, power);
            power = product(power, x, p);
        }
        *highest = grown(*highest, power);
        self.count = self.count.wrapping_add(1);
        self.last = Some(x);
    }

    /// A number that tells sketches apart by their sums and counts.
    pub fn sum(&self) -> u64 {
        mixed(std::iter::once(self.count).chain(self.sums.iter().copied()))
    }
}
