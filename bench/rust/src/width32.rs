//! The works at 32 bits, beside the published sketch; and insertions and products beside such as divide.
use crate::divided::{hidden_modulus, product, Divided};
use crate::{codes, mix, mixed, Kind, Work, CALLS, CODES, LOG};
use ::ours::width32::{self as ours, COUNT, LAST, SUMS};
use quack::arithmetic::{ModularArithmetic, ModularInteger};
use quack::{PowerSumQuack, PowerSumQuackU32, Quack};
use std::hint::black_box;

/// The works, in the order of their rows.
pub const WORKS: &[Kind] = &[
    insert,
    insert_divided,
    multiply,
    multiply_divided,
    remove,
    sub_assign,
    sub,
    coefficients,
    decode,
    decode_surplus,
    write,
    read,
];

fn rust_sketch(threshold: usize, codes: &[u32]) -> PowerSumQuackU32 {
    let mut sketch = PowerSumQuackU32::new(threshold);
    for &code in codes {
        sketch.insert(code);
    }
    sketch
}

fn our_sketch(threshold: usize, codes: &[u32]) -> Vec<u32> {
    let mut words = vec![0; ours::words(threshold)];
    assert_eq!(ours::new(threshold, &mut words), 0);
    for &code in codes {
        assert_eq!(ours::insert(&mut words, code), 0);
    }
    words
}

/// The sums and the count of the Rust's sketch: the code 0 gives a copy a last code, and touches no sum.
fn rust_sum(sketch: &PowerSumQuackU32) -> u64 {
    let mut copy = sketch.clone();
    copy.insert(0);
    let mut packet = vec![0u8; ours::packet_bytes(sketch.threshold())];
    copy.serialize(&mut packet);
    let sums = packet[8..].chunks(4).map(|b| u32::from_le_bytes(b.try_into().unwrap()));
    mixed(std::iter::once(sketch.count()).chain(sums))
}

fn our_sum(words: &[u32]) -> u64 {
    mixed(std::iter::once(words[COUNT]).chain(words[SUMS..].iter().copied()))
}

/// Codes put into a fresh sketch, beside what the given side does with them.
fn insertions(beside: &str, threshold: usize, seed: u64, rust: impl FnMut() -> u64 + 'static) -> Work {
    let list = codes(seed, CODES);
    Work {
        name: format!("32 bits, insert, one call, T {threshold}{beside}"),
        calls: CODES,
        rust: Box::new(rust),
        ours: Box::new(move || {
            let mut words = our_sketch(threshold, &[]);
            for &code in &list {
                ours::insert(black_box(&mut words), code);
            }
            our_sum(&words)
        }),
    }
}

fn insert(threshold: usize, seed: u64) -> Work {
    let list = codes(seed, CODES);
    insertions("", threshold, seed, move || {
        let mut sketch = PowerSumQuackU32::new(threshold);
        for &code in &list {
            black_box(&mut sketch).insert(code);
        }
        rust_sum(&sketch)
    })
}

fn insert_divided(threshold: usize, seed: u64) -> Work {
    let list = codes(seed, CODES);
    insertions(" (divided)", threshold, seed, move || {
        let mut sketch = Divided::new(threshold);
        for &code in &list {
            black_box(&mut sketch).insert(code);
        }
        sketch.sum()
    })
}

/// Chains of n products, each by the chain's own residue, beside what the given side makes of them.
fn chains(beside: &str, n: usize, seed: u64, rust: impl FnMut() -> u64 + 'static) -> Work {
    let list = residues(seed);
    Work {
        name: format!("32 bits, multiply, chains of {n}{beside}"),
        calls: CALLS * n,
        rust: Box::new(rust),
        ours: Box::new(move || mixed(list.iter().map(|&x| (0..n).fold(x, |power, _| ours::field_mul(power, x))))),
    }
}

/// Codes below the prime.
fn residues(seed: u64) -> Vec<u32> {
    codes(seed, CALLS).into_iter().map(|code| code % ours::MODULUS).collect()
}

fn multiply(n: usize, seed: u64) -> Work {
    let list: Vec<ModularInteger<u32>> = residues(seed).into_iter().map(ModularInteger::new).collect();
    chains("", n, seed, move || {
        mixed(list.iter().map(|&x| {
            let mut power = x;
            for _ in 0..n {
                power.mul_assign(x);
            }
            power.value()
        }))
    })
}

fn multiply_divided(n: usize, seed: u64) -> Work {
    let list = residues(seed);
    chains(" (divided)", n, seed, move || {
        let p = hidden_modulus();
        mixed(list.iter().map(|&x| (0..n).fold(x, |power, _| product(power, x, p))))
    })
}

fn remove(threshold: usize, seed: u64) -> Work {
    let (list, same) = (codes(seed, CODES), codes(seed, CODES));
    Work {
        name: format!("32 bits, remove, one call, T {threshold}"),
        calls: CODES,
        rust: Box::new(move || {
            let mut sketch = rust_sketch(threshold, &list[..10]);
            for &code in &list {
                black_box(&mut sketch).remove(code);
            }
            rust_sum(&sketch)
        }),
        ours: Box::new(move || {
            let mut words = our_sketch(threshold, &same[..10]);
            for &code in &same {
                ours::remove(black_box(&mut words), code);
            }
            our_sum(&words)
        }),
    }
}

fn sub_assign(threshold: usize, seed: u64) -> Work {
    let list = codes(seed, 100);
    let (a, b) = (rust_sketch(threshold, &list), rust_sketch(threshold, &list[..60]));
    let (c, d) = (our_sketch(threshold, &list), our_sketch(threshold, &list[..60]));
    Work {
        name: format!("32 bits, sub_assign, T {threshold}"),
        calls: CALLS,
        rust: Box::new(move || {
            let mut sketch = a.clone();
            for _ in 0..CALLS {
                black_box(&mut sketch).sub_assign(black_box(&b));
            }
            rust_sum(&sketch)
        }),
        ours: Box::new(move || {
            let mut words = c.clone();
            for _ in 0..CALLS {
                ours::sub_assign(black_box(&mut words), black_box(&d));
            }
            our_sum(&words)
        }),
    }
}

fn sub(threshold: usize, seed: u64) -> Work {
    let list = codes(seed, 100);
    let (a, b) = (rust_sketch(threshold, &list), rust_sketch(threshold, &list[..60]));
    let (c, d) = (our_sketch(threshold, &list), our_sketch(threshold, &list[..60]));
    Work {
        name: format!("32 bits, sub, T {threshold}"),
        calls: CALLS,
        rust: Box::new(move || {
            let mut sketch = a.clone();
            for _ in 0..CALLS {
                sketch = black_box(&a).sub(black_box(&b));
            }
            rust_sum(&sketch)
        }),
        ours: Box::new(move || {
            let mut words = c.clone();
            for _ in 0..CALLS {
                ours::sub(black_box(&c), black_box(&d), &mut words);
            }
            our_sum(&words)
        }),
    }
}

fn coefficients(n: usize, seed: u64) -> Work {
    let list = codes(seed, n);
    let (sketch, words) = (rust_sketch(n, &list), our_sketch(n, &list));
    let mut buffer = vec![0; n];
    Work {
        name: format!("32 bits, coefficients, n {n}"),
        calls: CALLS,
        rust: Box::new(move || {
            let mut coefficients = vec![];
            for _ in 0..CALLS {
                coefficients = black_box(&sketch).to_coeffs();
            }
            mixed(coefficients.iter().map(|a| a.value()))
        }),
        ours: Box::new(move || {
            for _ in 0..CALLS {
                ours::to_coeffs(black_box(&words), &mut buffer);
            }
            mixed(buffer.iter().copied())
        }),
    }
}

/// A log of which n entries are missing, spread over it.
fn decode(n: usize, seed: u64) -> Work {
    const TIMES: usize = 10;
    let log = codes(seed, LOG);
    let missing: Vec<u32> = log.iter().copied().step_by(LOG / n).take(n).collect();
    let (sketch, words) = (rust_sketch(n, &missing), our_sketch(n, &missing));
    let same = log.clone();
    let mut buffer = vec![0; LOG];
    Work {
        name: format!("32 bits, decode {LOG} entries, n {n}"),
        calls: TIMES,
        rust: Box::new(move || {
            let mut found = vec![];
            for _ in 0..TIMES {
                found = black_box(&sketch).decode_with_log(black_box(&log));
            }
            mixed(found)
        }),
        ours: Box::new(move || {
            let mut found = 0;
            for _ in 0..TIMES {
                found = ours::decode_with_log(black_box(&words), black_box(&same), &mut buffer).value;
            }
            mixed(buffer[..found].iter().copied())
        }),
    }
}

/// Beside the Rust's parts: a fresh sketch less this one, decoded.
fn decode_surplus(n: usize, seed: u64) -> Work {
    const TIMES: usize = 10;
    let got = codes(seed, LOG);
    let surplus: Vec<u32> = got.iter().copied().step_by(LOG / n).take(n).collect();
    let (fresh, mut sketch) = (PowerSumQuackU32::new(n), PowerSumQuackU32::new(n));
    let mut words = our_sketch(n, &[]);
    for &code in &surplus {
        sketch.remove(code);
        assert_eq!(ours::remove(&mut words, code), 0);
    }
    let same = got.clone();
    let mut buffer = vec![0; LOG];
    Work {
        name: format!("32 bits, decode surplus of {LOG}, n {n}"),
        calls: TIMES,
        rust: Box::new(move || {
            let mut found = vec![];
            for _ in 0..TIMES {
                let mut negated = fresh.clone();
                negated.sub_assign(black_box(&sketch));
                found = black_box(&negated).decode_with_log(black_box(&got));
            }
            mixed(found)
        }),
        ours: Box::new(move || {
            let mut found = 0;
            for _ in 0..TIMES {
                found = ours::decode_surplus_with_log(black_box(&words), black_box(&same), &mut buffer).value;
            }
            mixed(buffer[..found].iter().copied())
        }),
    }
}

fn write(threshold: usize, seed: u64) -> Work {
    let list = codes(seed, 100);
    let (sketch, words) = (rust_sketch(threshold, &list), our_sketch(threshold, &list));
    let mut packet = vec![0u8; ours::packet_bytes(threshold)];
    let mut same = packet.clone();
    Work {
        name: format!("32 bits, write, T {threshold}"),
        calls: CALLS,
        rust: Box::new(move || {
            for _ in 0..CALLS {
                black_box(&sketch).serialize(black_box(&mut packet));
            }
            mixed(packet.iter().copied())
        }),
        ours: Box::new(move || {
            for _ in 0..CALLS {
                ours::serialize(black_box(&words), black_box(&mut same));
            }
            mixed(same.iter().copied())
        }),
    }
}

fn read(threshold: usize, seed: u64) -> Work {
    let mut packet = vec![0u8; ours::packet_bytes(threshold)];
    rust_sketch(threshold, &codes(seed, 100)).serialize(&mut packet);
    let same = packet.clone();
    Work {
        name: format!("32 bits, read, T {threshold}"),
        calls: CALLS,
        rust: Box::new(move || {
            let mut sketch = PowerSumQuackU32::new(threshold);
            for _ in 0..CALLS {
                sketch = PowerSumQuackU32::deserialize(black_box(&packet));
            }
            mix(rust_sum(&sketch), sketch.last_value().unwrap() as u64)
        }),
        ours: Box::new(move || {
            let mut words = our_sketch(threshold, &[]);
            for _ in 0..CALLS {
                ours::deserialize(black_box(&same), black_box(&mut words));
            }
            mix(our_sum(&words), words[LAST] as u64)
        }),
    }
}
