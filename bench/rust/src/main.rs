//! Times the verified sketches and the Rust on the same inputs, in one process.
//!
//!     bench [RUNS] [SEED]
//!
//! Each work is run by turns on both sides, RUNS times each (31 unless said otherwise), after one run that is not
//! counted. Both sides answer a sum over all that they computed, and the sums must agree. Shown are the least and the
//! median time of a call and our time divided by the Rust's: above 1 is slower than the Rust.
//!
//! The verified side is called through its C boundary, a sketch as words: each call tests that the sketch is well formed,
//! and writes into buffers that are lent and not cleared between calls. The Rust makes a new list for coefficients,
//! decoded lists and sketches that are read, and that is part of its time.
//!
//! At 32 bits the Rust is the published sketch, unchanged, but for the rows named `(divided)`: there it is a plain loop
//! modulo a prime that the compiler cannot see. At 16 bits it is the published sketch that looks powers up in
//! a table, unchanged, in the rows named `(table)`, and a plain one in the others; evaluations are the published ones.

mod divided;
mod plain;
mod width16;
mod width32;

use std::time::Instant;

const LOG: usize = 8192;
const CODES: usize = 50_000;
const CALLS: usize = 20_000;

/// A work on one side: does it, and answers a sum over its results.
type Side = Box<dyn FnMut() -> u64>;

struct Work {
    name: String,
    /// Calls in one run, by which its time is divided.
    calls: usize,
    rust: Side,
    ours: Side,
}

/// Makes a work of a size, which is the threshold or the number of coefficients, from a seed.
type Kind = fn(usize, u64) -> Work;

fn codes(seed: u64, count: usize) -> Vec<u32> {
    let mut state = seed;
    let mut next = || {
        state = state.wrapping_mul(6364136223846793005).wrapping_add(1442695040888963407);
        (state >> 32) as u32
    };
    (0..count).map(|_| next()).collect()
}

// ---- what a side answers: a number that tells sketches apart

fn mix(sum: u64, number: u64) -> u64 {
    (sum ^ number).wrapping_mul(0x0000_0100_0000_01b3)
}

fn mixed(numbers: impl IntoIterator<Item = impl Into<u64>>) -> u64 {
    numbers.into_iter().fold(0xcbf2_9ce4_8422_2325, |sum, number| mix(sum, number.into()))
}

// ---- timing

fn timed(side: &mut Side, calls: usize) -> (f64, u64) {
    let began = Instant::now();
    let sum = side();
    (began.elapsed().as_nanos() as f64 / calls as f64, sum)
}

struct Times {
    least: f64,
    median: f64,
}

fn times(mut list: Vec<f64>) -> Times {
    list.sort_by(f64::total_cmp);
    Times { least: list[0], median: list[list.len() / 2] }
}

/// Runs a work by turns, prints its line, and says whether the sides always agreed.
fn measure(mut work: Work, runs: usize) -> bool {
    let (mut rust, mut ours) = (vec![], vec![]);
    let mut agreed = (work.rust)() == (work.ours)();
    for _ in 0..runs {
        let (one, first) = timed(&mut work.rust, work.calls);
        let (other, second) = timed(&mut work.ours, work.calls);
        rust.push(one);
        ours.push(other);
        agreed &= first == second;
    }
    let (rust, ours) = (times(rust), times(ours));
    println!(
        "{:44}{:>12.1}{:>12.1}{:>12.1}{:>12.1}{:>9.2}{:>9.2}{}",
        work.name,
        rust.least,
        rust.median,
        ours.least,
        ours.median,
        ours.least / rust.least,
        ours.median / rust.median,
        if agreed { "" } else { "   the sides differ" }
    );
    agreed
}

fn main() {
    let words: Vec<String> = std::env::args().collect();
    let number = |at: usize, other: u64| words.get(at).map_or(other, |w| w.parse().expect("a number"));
    let (runs, seed) = (number(1, 31) as usize, number(2, 1));
    quack::global_config_set_max_power_sum_threshold(32);
    table::global_config_set_max_power_sum_threshold(32);
    println!(
        "ns a call on {}, {runs} runs, seed {seed}; a ratio above 1 is slower than the Rust",
        std::env::consts::ARCH
    );
    println!(
        "{:44}{:>12}{:>12}{:>12}{:>12}{:>9}{:>9}",
        "", "Rust least", "median", "ours least", "median", "ratio", "median"
    );
    let mut timed = 0;
    let mut differences = 0;
    for kind in width32::WORKS.iter().chain(width16::WORKS) {
        for size in [20, 32] {
            timed += 1;
            differences += !measure(kind(size, seed), runs) as usize;
        }
    }
    println!(
        "timed {timed} works on both sides, {runs} runs each, and compared their results: {differences} differences"
    );
    std::process::exit((differences != 0) as i32)
}
