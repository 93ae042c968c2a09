//! The cases at 16 bits, and those of the evaluation that reduces once.
use crate::Numbers;
use eddybridge::field::Residue;
use eddybridge::{eval, eval_precompute, Refusal};
use eddybridge_sys::{width16 as sys, Value};

#[allow(clippy::duplicate_mod)]
#[path = "cases.rs"]
mod cases;

type Word = u16;
type Sketch = eddybridge::PowerSumQuackU16;

const NUMBERS: Numbers<Word> = Numbers {
    name: "PowerSumQuackU16",
    modulus: 65521,
    residue_of_max: 14,
    inverses: [32761, 43681, 49141],
    multiplications: [(0, 0), (1, 0), (65519, 29), (65535, 30)],
    packet: &[2, 0, 0, 0, 0x0a, 0, 0x0b, 0, 0x65, 0],
    packet_lengths: [6, 8, 10],
    too_short: 5,
    without_sum: [6, 7],
    too_long: 72,
    read: [(8, 1), (71, 32)],
};

const P: Word = NUMBERS.modulus;

/// Coefficients at their greatest, at their least, and spread between.
fn lists(length: usize) -> [Vec<Word>; 3] {
    let spread = (1..=length as u32).map(|k| (k * k * 40503 % u32::from(P)) as Word);
    [vec![P - 1; length], vec![0; length], spread.collect()]
}

#[test]
fn both_evaluations_agree() {
    for numbers in (1..=32).flat_map(lists) {
        let coeffs: Vec<Residue<Word>> = numbers.iter().copied().map(Residue::new).collect();
        for x in [0, 1, 2, 255, 256, 257, 40503, P - 1, P, Word::MAX] {
            assert_eq!(eval_precompute(&coeffs, x), eval(&coeffs, x), "{numbers:?} at {x}");
            assert!(eval_precompute(&coeffs, x).is_ok());
        }
    }
}

#[test]
fn one_reduction_takes_from_1_to_32_coefficients() {
    let one = Residue::new(1);
    assert_eq!(eval_precompute(&[], 1), Err(Refusal::NoCoefficient));
    assert_eq!(eval_precompute(&[one; 32], 1), Ok(Residue::new(33)));
    assert_eq!(eval_precompute(&[one; 33], 1), Err(Refusal::CountAboveThreshold));
    assert_eq!(eval(&[one; 33], 1), Ok(Residue::new(34)));
}

/// A residue is below the modulus, so coefficients that are not are lent to the function itself.
#[test]
fn one_reduction_refuses_in_order() {
    let refused = |refusal| Value { refusal, value: 0 };
    assert_eq!(sys::eval_precompute(&[], P), refused(11));
    assert_eq!(sys::eval_precompute(&[P; 33], 1), refused(4));
    assert_eq!(sys::eval_precompute(&[P; 32], 1), refused(8));
    for at in 0..32 {
        let mut coeffs = [P - 1; 32];
        coeffs[at] = P;
        assert_eq!(sys::eval_precompute(&coeffs, 1), refused(8));
    }
}
