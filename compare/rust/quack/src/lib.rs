//! The oracle: the published Rust, unchanged, with what its files expect around them.
//!
//! `compare/prepare` puts the published files beside this one. They name a crate root with macros for parts that are
//! left out here, a module `arithmetic`, a module `precompute` and the trait `Quack`. Only those stand below: the
//! published root asks for an unstable compiler and for files that are not at hand.
//!
//! The feature `power_table` takes the published 16-bit kind in, as the published root does. It does not build.
#![allow(warnings)]

#[cfg(feature = "power_table")]
macro_rules! cfg_power_table {
    ($($item:item)*) => {
        $($item)*
    };
}
// The kinds of other widths and the factoring are no part of this root: what these macros wrap is left out.
#[cfg(not(feature = "power_table"))]
macro_rules! cfg_power_table {
    ($($item:item)*) => {};
}
macro_rules! cfg_montgomery {
    ($($item:item)*) => {};
}
macro_rules! cfg_libpari {
    ($($item:item)*) => {};
}

/// What `power_sum.rs` implements for the 32-bit sketch: the published trait.
pub trait Quack {
    type Element;
    fn new(threshold: usize) -> Self
    where
        Self: Sized;
    fn threshold(&self) -> usize;
    fn count(&self) -> u32;
    fn last_value(&self) -> Option<Self::Element>;
    fn insert(&mut self, value: Self::Element);
    fn remove(&mut self, value: Self::Element);
    fn sub_assign(&mut self, rhs: &Self);
    fn sub(&self, rhs: &Self) -> Self;
}

pub mod arithmetic {
    mod evaluator;
    mod modint;
    pub use evaluator::{eval, CoefficientVector};
    pub use modint::{ModularArithmetic, ModularInteger};
    cfg_power_table! {
        pub use evaluator::eval_precompute;
    }
}

mod power_sum;
mod precompute;

pub use power_sum::{PowerSumQuack, PowerSumQuackU32};
pub use precompute::global_config_set_max_power_sum_threshold;

cfg_power_table! {
    mod power_table;
}
