//! The cases at 32 bits.
use crate::Numbers;

#[path = "cases.rs"]
mod cases;

type Word = u32;
type Sketch = eddybridge::PowerSumQuackU32;

const NUMBERS: Numbers<Word> = Numbers {
    name: "PowerSumQuackU32",
    modulus: 4294967291,
    residue_of_max: 4,
    inverses: [2147483646, 1431655764, 1073741823],
    multiplications: [(0, 0), (1, 0), (4294967289, 60), (4294967295, 62)],
    packet: &[2, 0, 0, 0, 0x0a, 0, 0, 0, 0x0b, 0, 0, 0, 0x65, 0, 0, 0],
    packet_lengths: [8, 12, 16],
    too_short: 7,
    without_sum: [8, 11],
    too_long: 140,
    read: [(12, 1), (139, 32)],
};
