//! The works at 16 bits: sketches beside the plain Rust and beside the published one that looks powers up in a table, and
//! both evaluations beside the published ones.
use crate::plain::Plain;
use crate::{mixed, Kind, Work, CALLS, CODES, LOG};
use ours::width16;
use std::hint::black_box;
use table::arithmetic::{self, ModularArithmetic, ModularInteger};
use table::{PowerSumQuack, PowerTableQuack};

/// The works, in the order of their rows.
pub const WORKS: &[Kind] = &[
    |size, seed| insert::<Plain>("", size, seed),
    |size, seed| insert::<PowerTableQuack>(" (table)", size, seed),
    |size, seed| remove::<Plain>("", size, seed),
    |size, seed| remove::<PowerTableQuack>(" (table)", size, seed),
    |size, seed| decode::<Plain>("", size, seed),
    |size, seed| decode::<PowerTableQuack>(" (table)", size, seed),
    |size, seed| evaluate("eval", arithmetic::eval, width16::eval, size, seed),
    |size, seed| evaluate("eval_precompute", arithmetic::eval_precompute, width16::eval_precompute, size, seed),
];

type Residue = ModularInteger<u16>;

/// A sketch of the Rust, of either sort.
trait Sketch: PowerSumQuack<Element = u16, ModularElement = Residue> + Clone + 'static {
    fn sums(&self) -> Vec<u32>;
}

impl Sketch for Plain {
    fn sums(&self) -> Vec<u32> {
        self.sums.iter().map(|sum| sum.value().into()).collect()
    }
}

impl Sketch for PowerTableQuack {
    /// The numbers in its debug text before the last value: no call gives its sums.
    fn sums(&self) -> Vec<u32> {
        let text = format!("{self:?}");
        let (sums, _) = text.split_once("last_value").expect("the last value");
        sums.split(|letter: char| !letter.is_ascii_digit()).filter_map(|number| number.parse().ok()).collect()
    }
}

/// The upper halves of 32-bit codes.
fn codes(seed: u64, count: usize) -> Vec<u16> {
    crate::codes(seed, count).into_iter().map(|code| (code >> 16) as u16).collect()
}

/// A sketch of the Rust that holds the codes.
fn rust_sketch<S: Sketch>(threshold: usize, codes: &[u16]) -> S {
    let mut sketch = S::new(threshold);
    for &code in codes {
        sketch.insert(code);
    }
    sketch
}

/// The words of a verified sketch that holds the codes.
fn our_sketch(threshold: usize, codes: &[u16]) -> Vec<u16> {
    let mut words = vec![0; width16::words(threshold)];
    assert_eq!(width16::new(threshold, &mut words), 0);
    for &code in codes {
        assert_eq!(width16::insert(&mut words, code), 0);
    }
    words
}

fn rust_sum<S: Sketch>(sketch: &S) -> u64 {
    mixed(std::iter::once(sketch.count()).chain(sketch.sums()))
}

fn our_sum(words: &[u16]) -> u64 {
    let sums = words[width16::SUMS..].iter().copied().map(u32::from);
    mixed(std::iter::once(width16::count(words)).chain(sums))
}

/// Codes put into a fresh sketch.
fn insert<S: Sketch>(beside: &str, threshold: usize, seed: u64) -> Work {
    let (list, same) = (codes(seed, CODES), codes(seed, CODES));
    Work {
        name: format!("16 bits, insert, one call, T {threshold}{beside}"),
        calls: CODES,
        rust: Box::new(move || {
            let mut sketch = S::new(threshold);
            for &code in &list {
                black_box(&mut sketch).insert(code);
            }
            rust_sum(&sketch)
        }),
        ours: Box::new(move || {
            let mut words = our_sketch(threshold, &[]);
            for &code in &same {
                width16::insert(black_box(&mut words), code);
            }
            our_sum(&words)
        }),
    }
}

/// Codes taken out of a sketch that holds ten of them.
fn remove<S: Sketch>(beside: &str, threshold: usize, seed: u64) -> Work {
    let (list, same) = (codes(seed, CODES), codes(seed, CODES));
    Work {
        name: format!("16 bits, remove, one call, T {threshold}{beside}"),
        calls: CODES,
        rust: Box::new(move || {
            let mut sketch = rust_sketch::<S>(threshold, &list[..10]);
            for &code in &list {
                black_box(&mut sketch).remove(code);
            }
            rust_sum(&sketch)
        }),
        ours: Box::new(move || {
            let mut words = our_sketch(threshold, &same[..10]);
            for &code in &same {
                width16::remove(black_box(&mut words), code);
            }
            our_sum(&words)
        }),
    }
}

/// A log of which n entries are missing, spread over it.
fn decode<S: Sketch>(beside: &str, n: usize, seed: u64) -> Work {
    const TIMES: usize = 10;
    let log = codes(seed, LOG);
    let missing: Vec<u16> = log.iter().copied().step_by(LOG / n).take(n).collect();
    let (sketch, words) = (rust_sketch::<S>(n, &missing), our_sketch(n, &missing));
    let same = log.clone();
    let mut buffer = vec![0; LOG];
    Work {
        name: format!("16 bits, decode {LOG} entries, n {n}{beside}"),
        calls: TIMES,
        rust: Box::new(move || {
            let mut found = vec![];
            for _ in 0..TIMES {
                found = black_box(&sketch).decode_with_log(black_box(&log));
            }
            mixed(found)
        }),
        ours: Box::new(move || {
            let mut found = 0;
            for _ in 0..TIMES {
                found = width16::decode_with_log(black_box(&words), black_box(&same), &mut buffer).value;
            }
            mixed(buffer[..found].iter().copied())
        }),
    }
}

/// One polynomial of n coefficients, at many codes.
fn evaluate(
    name: &str,
    rust: fn(&Vec<Residue>, u16) -> Residue,
    ours: fn(&[u16], u16) -> width16::Value,
    n: usize,
    seed: u64,
) -> Work {
    let coeffs: Vec<Residue> = codes(seed, n).into_iter().map(Residue::new).collect();
    let numbers: Vec<u16> = coeffs.iter().map(|coeff| coeff.value()).collect();
    let list = codes(seed + 1, CALLS);
    let same = list.clone();
    Work {
        name: format!("16 bits, {name}, n {n}"),
        calls: CALLS,
        rust: Box::new(move || mixed(list.iter().map(|&code| rust(black_box(&coeffs), code).value()))),
        ours: Box::new(move || {
            mixed(same.iter().map(|&code| {
                let answer = ours(black_box(&numbers), code);
                assert_eq!(answer.refusal, 0);
                answer.value
            }))
        }),
    }
}
