//! Drives the verified sketch and the unchanged Rust with the same operations, at a width of 32 or 16 bits.
//!
//!     driver compare WIDTH OPERATIONS SEED  runs both, and prints the operations of each kind and the differences
//!     driver script WIDTH OPERATIONS SEED   writes operations with the verified side's answers, for the second program
//!     driver record WIDTH OPERATIONS SEED   writes operations with the oracle's answers: a part of the recorded list
//!     driver strays [configured]            what the Rust does where the requirements refuse, or differs from it;
//!                                           or what its tables do that were made for thresholds up to 32

mod boundary;
mod calls;
mod cases;
mod generate;
mod op;
mod oracle;
mod published16;
mod published32;
mod residues;
mod rng;
mod strays;
mod strays16;
mod verified;
mod width;

use calls::{Calls, Calls16, Calls32};
use generate::{Generator, Sizes};
use op::{may_refuse, Op, EVAL_PRECOMPUTE, KINDS};
use oracle::{Oracle, Published};
use ours::MAX_THRESHOLD;
use quack::PowerSumQuackU32;
use std::collections::BTreeSet;
use std::io::Write;
use table::PowerTableQuack;
use verified::Verified;
use width::Width;

/// The runs that compare both sides, and those for the second program.
const COMPARE: Sizes = Sizes { slots: 4, bags: 60, history: 20_000, log: 200, wide: true, small: 0 };
const SCRIPT: Sizes = Sizes { slots: 3, bags: 60, history: 2_000, log: 60, wide: true, small: 0 };
/// Small, so that a program with fixed arrays can replay it: no number above 2^32 - 1, no list above 200.
const RECORD: Sizes = Sizes { slots: 3, bags: 20, history: 60, log: 24, wide: false, small: 70 };

/// Operations by kind, of these the refused ones by number, how far insertions and decodings reached, also those of a
/// surplus, and how many operations were on slots that a sketch fills, on slots with words behind it, and on slots with
/// none.
#[derive(Default)]
struct Tally {
    made: [u64; KINDS.len() + 1],
    refused: [[u64; 16]; KINDS.len() + 1],
    inserted_at: BTreeSet<u64>,
    listed: u64,
    decoded_counts: BTreeSet<u32>,
    surplus_listed: u64,
    surplus_counts: BTreeSet<i32>,
    filled: u64,
    longer: u64,
    without: u64,
}

impl Tally {
    /// Counts an operation that the oracle answered.
    fn count<S: Published>(&mut self, op: &Op, answer: &[u64], oracle: &Oracle<S>) {
        let kind = op.kind();
        self.made[kind] += 1;
        if may_refuse(kind) {
            self.refused[kind][answer[0] as usize] += 1;
        }
        if let Some(slot) = op.slot() {
            match oracle.threshold(slot) {
                Some(threshold) if oracle.words(slot).len() == S::WIDTH.words(threshold) => self.filled += 1,
                Some(_) => self.longer += 1,
                None => self.without += 1,
            }
        }
        match (op, answer) {
            (Op::Insert { .. }, [0, threshold, ..]) => {
                self.inserted_at.insert(*threshold);
            }
            (Op::Decode { slot, .. }, [0, found, ..]) if *found > 0 => {
                self.listed += 1;
                self.decoded_counts.insert(S::WIDTH.count(oracle.words(*slot)));
            }
            (Op::DecodeSurplus { slot, .. }, [0, found, ..]) if *found > 0 => {
                self.surplus_listed += 1;
                self.surplus_counts.insert(oracle.signed_count(*slot));
            }
            _ => {}
        }
    }

    /// Prints what was counted, kind by kind.
    fn print(&self, width: &Width) {
        for (name, kind) in KINDS.iter().zip(1..).filter(|&(_, kind)| has(width, kind)) {
            let refusals: Vec<String> = (1..16)
                .filter(|&n| self.refused[kind][n] > 0)
                .map(|n| format!("{n}: {}", self.refused[kind][n]))
                .collect();
            let refused =
                if refusals.is_empty() { String::new() } else { format!("   refused by {}", refusals.join(", ")) };
            println!("  {name:26}{:>10}{refused}", self.made[kind]);
        }
        println!(
            "  insertions at {} thresholds; {} decodings that list something, at {} counts, and {} of a surplus, at {}",
            self.inserted_at.len(),
            self.listed,
            self.decoded_counts.len(),
            self.surplus_listed,
            self.surplus_counts.len()
        );
        println!(
            "  {} operations on slices that a sketch fills, {} with words behind it, {} on slices without a sketch",
            self.filled, self.longer, self.without
        );
    }
}

/// Whether a width has the operations of a kind.
fn has(width: &Width, kind: usize) -> bool {
    kind != EVAL_PRECOMPUTE || width.single_reduction
}

/// The sides' slots agree, and no call wrote outside what it was lent.
fn same_state<S: Published, C: Calls>(verified: &Verified<C>, oracle: &Oracle<S>, slots: usize) -> bool {
    !verified.strayed && (0..slots).all(|slot| verified.holds(slot, oracle.words(slot)))
}

/// The verified side in the oracle's state, so that one fault is not counted again and again.
fn set_right<S: Published, C: Calls>(oracle: &Oracle<S>, slots: usize) -> Verified<C> {
    let mut verified = Verified::new(slots);
    for slot in 0..slots {
        verified.answer(&Op::Put { slot, words: oracle.words(slot).to_vec() });
    }
    verified
}

/// Runs both sides, prints what was compared and the first differences; the number of differences.
fn compare<S: Published, C: Calls>(operations: u64, seed: u64) -> u64 {
    let (width, slots) = (S::WIDTH, COMPARE.slots);
    let mut generator = Generator::new(width, seed, COMPARE);
    let (mut verified, mut oracle) = (Verified::<C>::new(slots), Oracle::<S>::new(slots));
    let mut tally = Tally::default();
    let mut differences = 0;
    for _ in 0..operations {
        let op = generator.next(&|slot| oracle.words(slot));
        let ours = verified.answer(&op);
        let theirs = oracle.answer(&op);
        tally.count(&op, &theirs, &oracle);
        if ours == theirs && same_state(&verified, &oracle, slots) {
            continue;
        }
        differences += 1;
        if differences <= 10 {
            print!("difference: {} {}", KINDS[op.kind() - 1], op.line(width, &ours));
            print!("  oracle {}", op.line(width, &theirs));
        }
        verified = set_right(&oracle, slots);
    }
    println!("operations by kind at {} bits, seed {seed}:", width.bits);
    tally.print(width);
    println!(
        "  {} removals of a code of the prime or more whose residue is the last code; the Rust keeps it at {}, as listed",
        oracle.keeping, oracle.kept
    );
    if tally.surplus_counts != (-(MAX_THRESHOLD as i32)..0).collect() {
        differences += 1;
        println!("difference: a surplus is to be listed at each number from 1 to the greatest threshold");
    }
    if oracle.keeping == 0 || oracle.kept != oracle.keeping {
        differences += 1;
        println!("difference: the Rust is to keep such a last code each time, and there is to be one");
    }
    println!("compared {operations} operations at {} bits with {}: {differences} differences", width.bits, S::NAME);
    differences
}

/// The operations of a run, each with what a side answers.
fn write<S: Published>(operations: u64, seed: u64, sizes: Sizes, mut side: impl FnMut(&Op, Vec<u64>) -> Vec<u64>) {
    let mut generator = Generator::new(S::WIDTH, seed, sizes);
    let mut oracle = Oracle::<S>::new(sizes.slots);
    let mut out = std::io::BufWriter::new(std::io::stdout().lock());
    for _ in 0..operations {
        let op = generator.next(&|slot| oracle.words(slot));
        let theirs = oracle.answer(&op);
        let answer = side(&op, theirs);
        out.write_all(op.line(S::WIDTH, &answer).as_bytes()).unwrap();
    }
    out.flush().unwrap();
}

/// What is asked for, at a width whose sides are these; the status to exit with.
fn run<S: Published, C: Calls>(command: &str, operations: u64, seed: u64) -> i32 {
    match command {
        "compare" => (compare::<S, C>(operations, seed) != 0) as i32,
        "script" => {
            let mut verified = Verified::<C>::new(SCRIPT.slots);
            write::<S>(operations, seed, SCRIPT, |op, _| verified.answer(op));
            if verified.strayed {
                eprintln!("difference: some call wrote outside what it was lent");
            }
            verified.strayed as i32
        }
        "record" => {
            write::<S>(operations, seed, RECORD, |_, theirs| theirs);
            0
        }
        _ => usage(),
    }
}

/// Says how the program is called; the status to exit with.
fn usage() -> i32 {
    eprintln!("usage: driver compare|script|record 32|16 OPERATIONS SEED, or driver strays [configured]");
    2
}

fn main() {
    let words: Vec<String> = std::env::args().skip(1).collect();
    let words: Vec<&str> = words.iter().map(String::as_str).collect();
    let status = match words[..] {
        ["strays"] => (strays::check(false) != 0) as i32,
        ["strays", "configured"] => (strays::check(true) != 0) as i32,
        [command, width, operations, seed] => match (width, operations.parse(), seed.parse()) {
            ("32", Ok(operations), Ok(seed)) => run::<PowerSumQuackU32, Calls32>(command, operations, seed),
            ("16", Ok(operations), Ok(seed)) => run::<PowerTableQuack, Calls16>(command, operations, seed),
            _ => usage(),
        },
        _ => usage(),
    };
    std::process::exit(status)
}
