//! The cases that both widths have, over the names and numbers of the width that stands around them.
use super::{Sketch, Word, NUMBERS};
use eddybridge::field::{Power, Residue};
use eddybridge::{eval, Refusal, MAX_THRESHOLD};

const P: Word = NUMBERS.modulus;

fn fresh(threshold: usize) -> Sketch {
    Sketch::new(threshold).expect("a threshold from 1 to 32")
}

fn sketch_of(threshold: usize, values: &[Word]) -> Sketch {
    let mut sketch = fresh(threshold);
    for &value in values {
        sketch.insert(value);
    }
    sketch
}

fn packet_of(sketch: &Sketch) -> Vec<u8> {
    let mut packet = vec![0; Sketch::packet_len(sketch.threshold())];
    assert_eq!(sketch.serialize(&mut packet), Ok(packet.len()));
    packet
}

/// The sums, read from a packet. Inserting 0 leaves them as they are and gives the sketch a last value.
fn sums_of(sketch: &Sketch) -> Vec<Word> {
    let mut writable = sketch.clone();
    writable.insert(0);
    let packet = packet_of(&writable);
    let sums = packet[Sketch::packet_len(0)..].chunks_exact(size_of::<Word>());
    sums.map(|sum| Word::from_le_bytes(sum.try_into().expect("the bytes of a sum"))).collect()
}

fn residues<const N: usize>(numbers: [Word; N]) -> [Residue<Word>; N] {
    numbers.map(Residue::new)
}

fn packet_with_sum(sum: Word) -> Vec<u8> {
    let (count, last): (u32, Word) = (1, 7);
    [&count.to_le_bytes()[..], &last.to_le_bytes(), &sum.to_le_bytes()].concat()
}

/// A sketch of as many sums 1 as the threshold, and of a count.
fn sketch_with_count(threshold: usize, count: u32) -> Sketch {
    let numbers = vec![1 as Word; 1 + threshold];
    let codes = numbers.iter().flat_map(|number| number.to_le_bytes());
    let packet: Vec<u8> = count.to_le_bytes().into_iter().chain(codes).collect();
    Sketch::deserialize(&packet).expect("a packet of the threshold")
}

#[test]
fn p1_residues() {
    assert_eq!(residues([P - 1, P, Word::MAX]).map(Residue::value), [P - 1, 0, NUMBERS.residue_of_max]);
    assert_eq!(Residue::<Word>::MODULUS, P);
}

#[test]
fn p2_arithmetic() {
    let [zero, one, last] = residues([0, 1, P - 1]);
    assert_eq!(last + one, zero);
    assert_eq!(zero - one, last);
    assert_eq!(last * last, one);
}

#[test]
fn p3_inverses() {
    assert_eq!(residues([2, 3, 4]).map(Residue::inv), residues(NUMBERS.inverses));
    assert_eq!(residues([0]).map(Residue::inv), residues([0]));
}

#[test]
fn p4_powers() {
    assert_eq!(Residue::<Word>::new(2).pow(10), Power { value: Residue::new(1024), multiplications: 4 });
    for (exponent, multiplications) in NUMBERS.multiplications {
        assert_eq!(Residue::<Word>::new(3).pow(exponent).multiplications, multiplications);
        assert_eq!(Residue::<Word>::pow_multiplications(exponent), multiplications);
    }
}

#[test]
fn p5_sums_and_coefficients() {
    let sketch = sketch_of(3, &[10, 12]);
    assert_eq!(sums_of(&sketch), [22, 244, 2728]);
    assert_eq!(sketch.to_coeffs().unwrap(), residues([P - 22, 120]));
}

#[test]
fn p6_repeats_of_the_log_are_kept() {
    let sketch = sketch_of(3, &[10, 12]);
    assert_eq!(sketch.decode_with_log(&[1, 2, 10, 12, 10]).unwrap(), [10, 12, 10]);
}

#[test]
fn p7_multiplicity_does_not_count() {
    let sketch = sketch_of(3, &[10, 10]);
    assert_eq!(sketch.decode_with_log(&[1, 10, 10, 10]).unwrap(), [10, 10, 10]);
}

#[test]
fn p8_packet() {
    let sketch = sketch_of(2, &[1, 10]);
    let packet = packet_of(&sketch);
    assert_eq!(packet, NUMBERS.packet);
    assert_eq!(Sketch::deserialize(&packet).unwrap(), sketch);
}

#[test]
fn p9_count_below_zero() {
    let mut sketch = fresh(1);
    sketch.remove(1);
    assert_eq!(sketch.count(), 4294967295);
    assert_eq!(sums_of(&sketch), [P - 1]);
    let mut buf = [0xaa; Sketch::packet_len(1)];
    assert_eq!(sketch.serialize(&mut buf), Err(Refusal::NoLastValue));
    assert_eq!(buf, [0xaa; Sketch::packet_len(1)]);
    assert_eq!(sketch.decode_with_log(&[1]), Err(Refusal::CountAboveThreshold));
    assert_eq!(sketch.to_coeffs(), Err(Refusal::CountAboveThreshold));
}

#[test]
fn p9_surplus_of_a_count_below_zero() {
    let mut sketch = fresh(1);
    sketch.remove(1);
    assert_eq!(sketch.signed_count(), -1);
    assert_eq!(sketch.decode_surplus_with_log(&[1, 2]).unwrap(), [1]);
    assert_eq!(sketch.decode_with_log(&[1, 2]), Err(Refusal::CountAboveThreshold));
    let negated = sketch.negated();
    assert_eq!((negated.threshold(), negated.count(), negated.last_value()), (1, 1, None));
    assert_eq!(sums_of(&negated), [1]);
}

#[test]
fn p10_count_zero_decodes_to_nothing() {
    let mut sketch = sketch_of(2, &[1]);
    sketch.remove(2);
    assert_eq!(sums_of(&sketch), [P - 1, P - 3]);
    assert_eq!(sketch.count(), 0);
    assert_eq!(sketch.last_value(), Some(1));
    assert_eq!(sketch.decode_with_log(&[1, 2]).unwrap(), []);
    assert_eq!(sketch.decode_surplus_with_log(&[1, 2]).unwrap(), []);
    assert_eq!(sketch.signed_count(), 0);
}

#[test]
fn p11_last_value_is_forgotten_by_its_residue() {
    for value in [Word::MAX, NUMBERS.residue_of_max] {
        let mut sketch = sketch_of(2, &[Word::MAX]);
        sketch.remove(value);
        assert_eq!(sums_of(&sketch), [0, 0]);
        assert_eq!(sketch.count(), 0);
        assert_eq!(sketch.last_value(), None);
    }
}

#[test]
fn p12_lengths_of_packets() {
    let bytes = [0; NUMBERS.too_long];
    let read = |length: usize| Sketch::deserialize(&bytes[..length]);
    assert_eq!(read(NUMBERS.too_short), Err(Refusal::PacketTooShort));
    for length in NUMBERS.without_sum {
        assert_eq!(read(length), Err(Refusal::SumsOutOfRange));
    }
    assert_eq!(read(NUMBERS.too_long), Err(Refusal::SumsOutOfRange));
    assert_eq!(NUMBERS.read.map(|(length, _)| read(length).unwrap().threshold()), NUMBERS.read.map(|(_, sums)| sums));
}

#[test]
fn count_at_and_above_the_greatest_threshold() {
    let log: Vec<Word> = (1..=33).collect();
    let mut sketch = sketch_of(32, &log[..32]);
    assert_eq!(sketch.decode_with_log(&log).unwrap(), log[..32]);
    sketch.insert(33);
    assert_eq!(sketch.decode_with_log(&log), Err(Refusal::CountAboveThreshold));
}

#[test]
fn sums_of_a_packet_are_below_the_modulus() {
    let read = Sketch::deserialize(&packet_with_sum(P - 1)).unwrap();
    assert_eq!(sums_of(&read), [P - 1]);
    assert_eq!(Sketch::deserialize(&packet_with_sum(P)), Err(Refusal::NotReduced));
}

#[test]
fn counts_have_32_bits() {
    let mut packet = packet_with_sum(5);
    packet[..4].copy_from_slice(&0xfedc_ffff_u32.to_le_bytes());
    let mut sketch = Sketch::deserialize(&packet).unwrap();
    assert_eq!(sketch.count(), 0xfedc_ffff);
    sketch.insert(1);
    assert_eq!(sketch.count(), 0xfedd_0000);
}

#[test]
fn thresholds_out_of_range() {
    for threshold in [0, 33, usize::MAX] {
        assert_eq!(Sketch::new(threshold), Err(Refusal::ThresholdOutOfRange));
    }
}

#[test]
fn subtractions() {
    let (sent, received) = (sketch_of(3, &[1, 2, 10]), sketch_of(2, &[1, 10]));
    let mut kept = sent.clone();
    assert_eq!(kept.sub_assign(&received), Err(Refusal::ThresholdsDiffer));
    assert_eq!(kept, sent);

    let missing = sent.sub(&received);
    assert_eq!((missing.threshold(), missing.count(), missing.last_value()), (2, 1, None));
    assert_eq!(sums_of(&missing), [2, 4]);

    kept.sub_assign(&sketch_of(3, &[1, 10])).unwrap();
    assert_eq!(sums_of(&kept), [2, 4, 8]);
    assert_eq!(kept.decode_with_log(&[1, 2, 10]).unwrap(), [2]);
}

#[test]
fn counts_read_as_signed_numbers() {
    let counts = [
        (0, 0),
        (1, 1),
        (65536, 65536),
        (2147483647, 2147483647),
        (2147483648, -2147483648),
        (2147483649, -2147483647),
        (4294901760, -65536),
        (4294967295, -1),
    ];
    for (count, signed) in counts {
        let sketch = sketch_with_count(1, count);
        assert_eq!((sketch.count(), sketch.signed_count()), (count, signed));
    }
}

#[test]
fn surplus_up_to_the_threshold_and_no_further() {
    for threshold in [1, 2, 31, 32] {
        let of = |count: i64| sketch_with_count(threshold, count as u32);
        let most = threshold as i64;
        for count in [-most, -1] {
            assert!(of(count).decode_surplus_with_log(&[0, 1, P - 1]).is_ok());
        }
        for count in [-most - 1, -2147483647, -2147483648] {
            assert_eq!(of(count).decode_surplus_with_log(&[]), Err(Refusal::CountAboveThreshold));
        }
        for count in [0, 1, most + 1, 2147483647] {
            assert_eq!(of(count).decode_surplus_with_log(&[0, 1, P - 1]).unwrap(), []);
        }
    }
}

#[test]
fn surplus_is_listed_as_it_was_got() {
    let got = [10, 12, Word::MAX, 10, 12, NUMBERS.residue_of_max, 9];
    let (sent, received) = (sketch_of(3, &[10]), sketch_of(3, &[12, 10, 10, Word::MAX]));
    let surplus = sent.sub(&received);
    assert_eq!(surplus.signed_count(), -3);
    assert_eq!(surplus.decode_surplus_with_log(&got).unwrap(), got[..6]);
    assert_eq!(surplus.negated().decode_with_log(&got).unwrap(), got[..6]);
    assert_eq!(surplus.negated(), received.sub(&sent));
}

#[test]
fn decoding_the_surplus_into_a_lent_slice() {
    let mut sketch = fresh(3);
    [10, 12].into_iter().for_each(|value| sketch.remove(value));
    let mut out = [7; 6];
    assert_eq!(sketch.decode_surplus_into(&[1, 2, 10, 12, 10], &mut out), Ok(3));
    assert_eq!(out, [10, 12, 10, 7, 7, 7]);
    assert_eq!(sketch.decode_surplus_into(&[10; 7], &mut out), Err(Refusal::BufferTooShort));
    assert_eq!(fresh(3).decode_surplus_into(&[10; 7], &mut out), Err(Refusal::BufferTooShort));
    assert_eq!(fresh(3).decode_surplus_into(&[10; 6], &mut out), Ok(0));
    assert_eq!(sketch.decode_surplus_into(&[], &mut []), Ok(0));
    (0..2).for_each(|value| sketch.remove(value));
    assert_eq!(sketch.decode_surplus_into(&[10; 7], &mut out), Err(Refusal::CountAboveThreshold));
    assert_eq!(out, [10, 12, 10, 7, 7, 7]);
}

#[test]
fn negation_is_a_subtraction_from_nothing() {
    for threshold in 1..=32 {
        let sketch = sketch_of(threshold, &[1, 10, P - 1]);
        assert_eq!(sketch.negated(), fresh(threshold).sub(&sketch));
        assert_eq!(sketch.negated().signed_count(), -3);
        assert_eq!(sketch.negated().negated(), sketch.sub(&fresh(threshold)));
        assert_eq!(fresh(threshold).negated(), fresh(threshold));
    }
}

#[test]
fn sketches_are_equal_however_they_came_about() {
    for threshold in 1..=32 {
        let sketch = sketch_of(threshold, &[1, 10]);
        assert_eq!(Sketch::deserialize(&packet_of(&sketch)).unwrap(), sketch);
        assert_eq!(
            Sketch::deserialize(&packet_of(&sketch_of(32, &[1, 10]))[..Sketch::packet_len(threshold)]).unwrap(),
            sketch
        );
        let mut rest = sketch.clone();
        rest.sub_assign(&sketch_of(threshold, &[10])).unwrap();
        for greater in threshold..=32 {
            assert_eq!(sketch_of(greater, &[1, 10]).sub(&sketch_of(threshold, &[10])), rest);
            assert_eq!(sketch.sub(&sketch_of(greater, &[10])), rest);
        }
        assert_eq!(rest.threshold(), threshold);
    }
}

#[test]
fn hints_cut_the_sums_and_nothing_else() {
    let sketch = sketch_of(2, &[1, 10]);
    let whole = packet_of(&sketch);
    let [none, one, both] = NUMBERS.packet_lengths;
    for (hint, length) in [(0, none), (1, one), (2, both), (3, both), (usize::MAX, both)] {
        let mut buf = [0xaa; 20];
        assert_eq!(sketch.serialize_with_hint(&mut buf, hint), Ok(length));
        assert_eq!(buf[..length], whole[..length]);
        assert_eq!(buf[length..], [0xaa; 20][length..]);
    }
}

#[test]
fn short_buffers_stay_unchanged() {
    let sketch = sketch_of(2, &[1, 10]);
    let [none, _, both] = NUMBERS.packet_lengths;
    let mut buf = vec![0xaa; both - 1];
    assert_eq!(sketch.serialize(&mut buf), Err(Refusal::BufferTooShort));
    assert_eq!(sketch.serialize(&mut []), Err(Refusal::BufferTooShort));
    assert_eq!(sketch.serialize_with_hint(&mut buf[..none - 1], 0), Err(Refusal::BufferTooShort));
    assert_eq!(buf, vec![0xaa; both - 1]);
}

#[test]
fn empty_logs_and_packets() {
    assert_eq!(sketch_of(2, &[1]).decode_with_log(&[]).unwrap(), []);
    assert_eq!(sketch_of(2, &[1]).decode_into(&[], &mut []), Ok(0));
    assert_eq!(fresh(2).to_coeffs().unwrap(), []);
    assert_eq!(Sketch::deserialize(&[]), Err(Refusal::PacketTooShort));
}

#[test]
fn decoding_into_a_lent_slice() {
    let mut sketch = sketch_of(3, &[10, 12]);
    let mut out = [7; 6];
    assert_eq!(sketch.decode_into(&[1, 2, 10, 12, 10], &mut out), Ok(3));
    assert_eq!(out, [10, 12, 10, 7, 7, 7]);
    assert_eq!(sketch.decode_into(&[10; 7], &mut out), Err(Refusal::BufferTooShort));
    (0..2).for_each(|value| sketch.insert(value));
    assert_eq!(sketch.decode_into(&[10; 7], &mut out), Err(Refusal::CountAboveThreshold));
    assert_eq!(out, [10, 12, 10, 7, 7, 7]);
}

#[test]
fn lengths_and_limits() {
    let [none, one, _] = NUMBERS.packet_lengths;
    assert_eq!((MAX_THRESHOLD, Sketch::MAX_PACKET_LEN), (32, none + 32 * (one - none)));
    for threshold in 1..=MAX_THRESHOLD {
        let mut buf = [0; Sketch::MAX_PACKET_LEN];
        assert_eq!(sketch_of(threshold, &[1]).serialize(&mut buf), Ok(Sketch::packet_len(threshold)));
    }
}

#[test]
fn residues_in_place_and_as_numbers() {
    let mut residue = Residue::<Word>::from(5);
    residue += Residue::new(P - 1);
    assert_eq!(residue, Residue::new(4));
    residue -= Residue::new(6);
    assert_eq!(residue, -Residue::new(2));
    residue *= Residue::new(NUMBERS.inverses[0]);
    assert_eq!(Word::from(residue), P - 1);
    assert_eq!(residue.to_string(), (P - 1).to_string());
    assert_eq!(-Residue::default(), Residue::new(P));
}

#[test]
fn evaluation() {
    let coeffs = sketch_of(3, &[10, 12]).to_coeffs().unwrap();
    let [zero, minus_one, last] = residues([0, P - 1, 120]);
    assert_eq!([10, 12, 11].map(|x| eval(&coeffs, x)), [Ok(zero), Ok(zero), Ok(minus_one)]);
    assert_eq!(eval(&coeffs, P), Ok(last));
    assert_eq!(eval::<Word>(&[], 1), Err(Refusal::NoCoefficient));
}

#[test]
fn debugging_shows_the_sketch() {
    let shown = format!("{:?}", sketch_of(2, &[1, 10]));
    assert_eq!(shown, format!("{} {{ power_sums: [11, 101], last_value: Some(10), count: 2 }}", NUMBERS.name));
}
