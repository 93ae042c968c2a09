//! The further oracle at 16 bits: the published `PowerTableQuack`, unchanged, with what its file expects around it.
//!
//! The published trait `Quack` borrows what it subtracts, and the file takes it by value. So it stands here under a
//! trait of that form, which makes this a root of its own over the same published files.
#![allow(warnings)]

macro_rules! cfg_power_table {
    ($($item:item)*) => {
        $($item)*
    };
}
// What these macros wrap is left out.
macro_rules! cfg_montgomery {
    ($($item:item)*) => {};
}
macro_rules! cfg_libpari {
    ($($item:item)*) => {};
}

/// What `power_table.rs` implements.
pub trait Quack {
    type Element;
    fn new(threshold: usize) -> Self
    where
        Self: Sized;
    fn threshold(&self) -> usize;
    fn count(&self) -> u32;
    fn last_value(&self) -> Option<Self::Element>;
    fn insert(&mut self, value: Self::Element);
    fn remove(&mut self, value: Self::Element);
    fn sub_assign(&mut self, rhs: Self);
    fn sub(self, rhs: Self) -> Self;
}

/// What `power_table.rs` implements besides.
pub trait PowerSumQuack: Quack {
    type ModularElement;
    fn to_coeffs(&self) -> arithmetic::CoefficientVector<Self::ModularElement>;
    fn to_coeffs_preallocated(&self, coeffs: &mut arithmetic::CoefficientVector<Self::ModularElement>);
    fn decode_with_log(&self, log: &[Self::Element]) -> Vec<Self::Element>;
}

pub mod arithmetic {
    mod evaluator;
    mod modint;
    pub use evaluator::{eval, eval_precompute, CoefficientVector};
    pub use modint::{ModularArithmetic, ModularInteger};
}

mod power_table;
mod precompute;

pub use power_table::PowerTableQuack;
pub use precompute::{global_config_set_max_power_sum_threshold, INVERSE_TABLE_U16, POWER_TABLE};
