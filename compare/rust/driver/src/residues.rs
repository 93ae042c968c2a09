//! The published arithmetic of residues, `ModularInteger` and `eval`, as the oracle takes it at each width.

use crate::op::Op;
use quack::arithmetic::{eval, ModularArithmetic, ModularInteger};

/// A number as the Rust takes it.
pub fn number<N: TryFrom<u32>>(number: u32) -> N {
    N::try_from(number).ok().expect("a number of the width")
}

/// The value of a polynomial at `x`.
pub fn value<N: Copy + TryFrom<u32> + Into<u64>>(coeffs: &[u32], x: u32) -> u32
where
    ModularInteger<N>: ModularArithmetic<SmallModulusType = N>,
{
    let coeffs = coeffs.iter().map(|&a| ModularInteger::new(number(a))).collect();
    eval(&coeffs, number(x)).value().into() as u32
}

/// The Rust counts no multiplications: the count is that of the definition's steps.
fn multiplications(exponent: u32) -> u64 {
    match exponent {
        0 | 1 => 0,
        _ => multiplications(exponent / 2) + 1 + (exponent % 2) as u64,
    }
}

/// The operations on codes.
pub fn field<N: Copy + TryFrom<u32> + Into<u64>>(op: &Op) -> Vec<u64>
where
    ModularInteger<N>: ModularArithmetic<SmallModulusType = N>,
{
    let of = |a: u32| ModularInteger::<N>::new(number(a));
    let one = |residue: ModularInteger<N>| vec![residue.value().into()];
    match *op {
        Op::Reduce(a) => one(of(a)),
        Op::Add(a, b) => one(of(a).add(of(b))),
        Op::FieldSub(a, b) => one(of(a).sub(of(b))),
        Op::Mul(a, b) => one(of(a).mul(of(b))),
        Op::Neg(a) => one(of(a).neg()),
        Op::Inv(a) => one(of(a).inv()),
        Op::Pow(a, exponent) => vec![of(a).pow(number(exponent)).value().into(), multiplications(exponent)],
        Op::PowMultiplications(exponent) => vec![multiplications(exponent)],
        _ => unreachable!("an operation on slots or coefficients"),
    }
}
