//! The published table-driven 16-bit sketch, `PowerTableQuack`, as the oracle takes it.
//!
//! It has no packets, so here they are those of the width's rule, and the second program alone judges that rule. Nor
//! does it let its sums in and out by a call: they go in through its `Deserialize`, and out through its `Debug`.

use crate::op::Op;
use crate::oracle::Published;
use crate::residues::{self, number};
use crate::width::{Width, BITS16};
use ours::{MAX_THRESHOLD, THRESHOLD};
use serde::de::value::{Error, MapDeserializer, SeqDeserializer};
use serde::de::{Deserialize, Deserializer, IntoDeserializer, Visitor};
use table::arithmetic::{ModularArithmetic, ModularInteger};
use table::{PowerSumQuack, PowerTableQuack, Quack};

/// What a sketch is deserialized from: numbers, none, lists, and structs by their fields.
enum Held {
    Number(u32),
    Nothing,
    List(Vec<Held>),
    Fields(Vec<(&'static str, Held)>),
}

impl Held {
    /// A residue, which the Rust holds in a struct of one field.
    fn residue(value: u32) -> Held {
        Held::Fields(vec![("value", Held::Number(value))])
    }
}

impl<'de> IntoDeserializer<'de> for Held {
    type Deserializer = Held;

    fn into_deserializer(self) -> Held {
        self
    }
}

impl<'de> Deserializer<'de> for Held {
    type Error = Error;

    fn deserialize_any<V: Visitor<'de>>(self, visitor: V) -> Result<V::Value, Error> {
        match self {
            Held::Number(number) => visitor.visit_u32(number),
            Held::Nothing => visitor.visit_none(),
            Held::List(list) => visitor.visit_seq(SeqDeserializer::new(list.into_iter())),
            Held::Fields(fields) => visitor.visit_map(MapDeserializer::new(fields.into_iter())),
        }
    }

    fn deserialize_option<V: Visitor<'de>>(self, visitor: V) -> Result<V::Value, Error> {
        match self {
            Held::Nothing => visitor.visit_none(),
            some => visitor.visit_some(some),
        }
    }

    serde::forward_to_deserialize_any! {
        bool i8 i16 i32 i64 i128 u8 u16 u32 u64 u128 f32 f64 char str string bytes byte_buf unit unit_struct
        newtype_struct seq tuple tuple_struct map struct enum identifier ignored_any
    }
}

/// The sketch of these numbers, whatever they are.
pub fn sketch_of(count: u32, last: Option<u32>, sums: &[u32]) -> PowerTableQuack {
    let held = Held::Fields(vec![
        ("power_sums", Held::List(sums.iter().map(|&sum| Held::residue(sum)).collect())),
        ("last_value", last.map_or(Held::Nothing, Held::residue)),
        ("count", Held::Number(count)),
    ]);
    PowerTableQuack::deserialize(held).expect("the fields of the sketch")
}

/// The sums of a sketch: the numbers in its debug text before the field of the last code.
fn sums_of(sketch: &PowerTableQuack) -> Vec<u32> {
    let text = format!("{sketch:?}");
    let (sums, _) = text.split_once("last_value").expect("a field of the sketch");
    let digits = sums.split(|letter: char| !letter.is_ascii_digit());
    digits.filter(|run| !run.is_empty()).map(|run| run.parse().unwrap()).collect()
}

/// The sketch with its first sums alone.
fn cut(sketch: &PowerTableQuack, threshold: usize) -> PowerTableQuack {
    let last = sketch.last_value().map(u32::from);
    sketch_of(sketch.count(), last, &sums_of(sketch)[..threshold])
}

impl Published for PowerTableQuack {
    const WIDTH: &'static Width = &BITS16;
    const NAME: &'static str = "the unchanged PowerTableQuack";

    /// Its tables have 20 inverses and the powers up to the 20th until they are told otherwise, and are made at their
    /// first use.
    fn configure() {
        table::global_config_set_max_power_sum_threshold(MAX_THRESHOLD);
    }

    fn fresh(threshold: usize) -> Self {
        Quack::new(threshold)
    }

    fn of(words: &[u32]) -> Self {
        let last = (words[BITS16.has_last()] == 1).then_some(words[BITS16.last()]);
        sketch_of(BITS16.count(words), last, &words[BITS16.sums()..BITS16.words(words[THRESHOLD] as usize)])
    }

    fn words(&self) -> Vec<u32> {
        let mut words = vec![0; BITS16.sums()];
        words[THRESHOLD] = self.threshold() as u32;
        BITS16.put_count(&mut words, self.count());
        if let Some(last) = self.last_value() {
            (words[BITS16.has_last()], words[BITS16.last()]) = (1, last as u32);
        }
        [words, sums_of(self)].concat()
    }

    fn insert(&mut self, code: u32) {
        Quack::insert(self, number(code));
    }

    fn remove(&mut self, code: u32) {
        Quack::remove(self, number(code));
    }

    fn sub_assign(&mut self, rhs: &Self) {
        Quack::sub_assign(self, rhs.clone());
    }

    /// Both are cut to the smaller threshold first, since the published one panics where thresholds differ.
    fn sub(&self, rhs: &Self) -> Self {
        let threshold = self.threshold().min(rhs.threshold());
        Quack::sub(cut(self, threshold), cut(rhs, threshold))
    }

    fn to_coeffs(&self) -> Vec<u32> {
        PowerSumQuack::to_coeffs(self).iter().map(|a| a.value() as u32).collect()
    }

    fn decode_with_log(&self, log: &[u32]) -> Vec<u32> {
        let log: Vec<u16> = log.iter().map(|&code| number(code)).collect();
        PowerSumQuack::decode_with_log(self, &log).into_iter().map(u32::from).collect()
    }

    fn write(&self, buffer: &mut [u8], hint: Option<usize>) -> usize {
        let words = self.words();
        let packet = BITS16.packet_of(&words, words[BITS16.last()], hint.unwrap_or(MAX_THRESHOLD));
        buffer[..packet.len()].copy_from_slice(&packet);
        packet.len()
    }

    fn read(bytes: &[u8]) -> Self {
        let (head, _) = bytes.split_at(BITS16.head_bytes());
        let (count, last) = head.split_at(head.len() - BITS16.code_bytes());
        let count = u32::from_le_bytes(count.try_into().unwrap());
        let last = ModularInteger::<u16>::new(number(BITS16.code_in(last))).value();
        sketch_of(count, Some(last as u32), &BITS16.sums_in(bytes))
    }

    fn eval(coeffs: &[u32], x: u32) -> u32 {
        residues::value::<u16>(coeffs, x)
    }

    fn eval_precompute(coeffs: &[u32], x: u32) -> u32 {
        let coeffs = coeffs.iter().map(|&a| ModularInteger::new(number(a))).collect();
        table::arithmetic::eval_precompute(&coeffs, number(x)).value() as u32
    }

    fn field(op: &Op) -> Vec<u64> {
        residues::field::<u16>(op)
    }
}
