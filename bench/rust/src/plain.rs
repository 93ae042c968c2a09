//! A 16-bit sketch in plain Rust, for its times alone. The published one of this kind does not build as given. This one
//! takes the same steps over the published arithmetic: a running product for an insertion, and for a decoding one
//! evaluation for each entry of the log.
use table::arithmetic::{eval, ModularArithmetic, ModularInteger};
use table::{PowerSumQuack, Quack, INVERSE_TABLE_U16};

type Residue = ModularInteger<u16>;

/// As many sums as the threshold, the count, and the residue of the last code.
#[derive(Clone)]
pub struct Plain {
    pub sums: Vec<Residue>,
    count: u32,
    last: Option<Residue>,
}

/// Passes each sum, and the power of the code that belongs to it, to `step`.
fn with_powers(sums: &mut [Residue], x: Residue, step: fn(&mut Residue, Residue)) {
    let Some((highest, lower)) = sums.split_last_mut() else { return };
    let mut power = x;
    for sum in lower {
        step(sum, power);
        power.mul_assign(x);
    }
    step(highest, power);
}

impl Quack for Plain {
    type Element = u16;

    fn new(threshold: usize) -> Self {
        Self { sums: vec![Residue::new(0); threshold], count: 0, last: None }
    }

    fn threshold(&self) -> usize {
        self.sums.len()
    }

    fn count(&self) -> u32 {
        self.count
    }

    fn last_value(&self) -> Option<u16> {
        self.last.map(|last| last.value())
    }

    fn insert(&mut self, code: u16) {
        let x = Residue::new(code);
        with_powers(&mut self.sums, x, |sum, power| sum.add_assign(power));
        self.count = self.count.wrapping_add(1);
        self.last = Some(x);
    }

    fn remove(&mut self, code: u16) {
        with_powers(&mut self.sums, Residue::new(code), |sum, power| sum.sub_assign(power));
        self.count = self.count.wrapping_sub(1);
        self.last = self.last.filter(|last| last.value() != code);
    }

    fn sub_assign(&mut self, rhs: Self) {
        for (sum, &other) in self.sums.iter_mut().zip(&rhs.sums) {
            sum.sub_assign(other);
        }
        self.count = self.count.wrapping_sub(rhs.count);
        self.last = None;
    }

    fn sub(mut self, rhs: Self) -> Self {
        self.sub_assign(rhs);
        self
    }
}

impl PowerSumQuack for Plain {
    type ModularElement = Residue;

    fn to_coeffs(&self) -> Vec<Residue> {
        let mut coeffs = vec![Residue::new(0); self.count as usize];
        self.to_coeffs_preallocated(&mut coeffs);
        coeffs
    }

    /// Newton's identities: the coefficient at place k is minus the k + 1st part of its sum and of the products of the
    /// earlier coefficients with the lower sums.
    fn to_coeffs_preallocated(&self, coeffs: &mut Vec<Residue>) {
        for k in 0..coeffs.len() {
            let mut total = self.sums[k];
            for j in 0..k {
                total.add_assign(coeffs[j].mul(self.sums[k - 1 - j]));
            }
            coeffs[k] = total.neg().mul(INVERSE_TABLE_U16[k]);
        }
    }

    fn decode_with_log(&self, log: &[u16]) -> Vec<u16> {
        if self.count == 0 {
            return vec![];
        }
        let coeffs = self.to_coeffs();
        log.iter().copied().filter(|&code| eval(&coeffs, code).value() == 0).collect()
    }
}
