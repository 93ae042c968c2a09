//! The sketch.
#[cfg(feature = "alloc")]
use crate::field::Residue;
use crate::refusal::Refusal;
use crate::Width;
#[cfg(feature = "alloc")]
use alloc::{vec, vec::Vec};
use core::fmt;
use eddybridge_sys as sys;

/// A sketch of 32-bit values.
pub type PowerSumQuackU32 = PowerSumQuack<u32>;

/// A sketch of 16-bit values.
///
/// # Examples
///
/// ```
/// use eddybridge::PowerSumQuackU16;
///
/// # fn main() -> Result<(), eddybridge::Refusal> {
/// let mut sketch = PowerSumQuackU16::new(2)?;
/// sketch.insert(65535);
/// assert_eq!(sketch.last_value(), Some(14));
/// assert_eq!(sketch.decode_with_log(&[14, 15, 65535])?, [14, 65535]);
/// # Ok(())
/// # }
/// ```
pub type PowerSumQuackU16 = PowerSumQuack<u16>;

/// Room for a sketch of the greatest threshold at either width: one of 16 bits has two words for its count.
const ROOM: usize = sys::width16::MAX_WORDS;

/// A sketch of a multiset of values, [`PowerSumQuackU32`] or [`PowerSumQuackU16`]: as many sums of powers as its
/// threshold, a count, and the last value inserted, where it is known.
///
/// A value of the prime [`MODULUS`](Width::MODULUS) or more counts as its residue, the value less the prime.
///
/// # Examples
///
/// ```
/// use eddybridge::PowerSumQuackU32;
///
/// # fn main() -> Result<(), eddybridge::Refusal> {
/// let mut sketch = PowerSumQuackU32::new(3)?;
/// sketch.insert(10);
/// sketch.insert(12);
/// assert_eq!(sketch.decode_with_log(&[1, 2, 10, 12, 10])?, [10, 12, 10]);
/// # Ok(())
/// # }
/// ```
#[derive(Clone, PartialEq, Eq)]
pub struct PowerSumQuack<W> {
    /// The words of the sketch, and zeros behind them: every sketch begins as [`Self::blank`], and no call writes there.
    /// So two sketches are equal where all their words are.
    words: [W; ROOM],
}

impl<W: Width> PowerSumQuack<W> {
    /// The bytes of the longest packet, that of a sketch of [`MAX_THRESHOLD`](crate::MAX_THRESHOLD).
    pub const MAX_PACKET_LEN: usize = Self::packet_len(crate::MAX_THRESHOLD);

    /// The bytes of the packet of a sketch of a threshold: 8 + 4·threshold at 32 bits, 6 + 2·threshold at 16 bits.
    ///
    /// # Examples
    ///
    /// ```
    /// use eddybridge::{PowerSumQuackU16, PowerSumQuackU32};
    ///
    /// assert_eq!(PowerSumQuackU32::packet_len(3), 20);
    /// assert_eq!(PowerSumQuackU16::packet_len(3), 12);
    /// ```
    pub const fn packet_len(threshold: usize) -> usize {
        sys::packet_bytes::<W>(threshold)
    }

    fn blank() -> Self {
        Self { words: [W::default(); ROOM] }
    }

    /// Makes an empty sketch that can decode up to `threshold` values.
    ///
    /// # Errors
    ///
    /// [`Refusal::ThresholdOutOfRange`] where `threshold` is 0 or above [`MAX_THRESHOLD`](crate::MAX_THRESHOLD).
    ///
    /// # Examples
    ///
    /// ```
    /// use eddybridge::{PowerSumQuackU32, Refusal};
    ///
    /// # fn main() -> Result<(), Refusal> {
    /// let sketch = PowerSumQuackU32::new(20)?;
    /// assert_eq!(sketch.threshold(), 20);
    /// assert_eq!(sketch.count(), 0);
    /// assert_eq!(sketch.last_value(), None);
    /// assert_eq!(PowerSumQuackU32::new(0), Err(Refusal::ThresholdOutOfRange));
    /// # Ok(())
    /// # }
    /// ```
    pub fn new(threshold: usize) -> Result<Self, Refusal> {
        let mut made = Self::blank();
        Refusal::unless(W::new(threshold, &mut made.words), ())?;
        Ok(made)
    }

    /// Inserts `value`. The count grows by 1 modulo 2^32, and the last value becomes the residue of `value`.
    ///
    /// # Examples
    ///
    /// ```
    /// use eddybridge::PowerSumQuackU32;
    ///
    /// # fn main() -> Result<(), eddybridge::Refusal> {
    /// let mut sketch = PowerSumQuackU32::new(2)?;
    /// sketch.insert(7);
    /// sketch.insert(4294967295);
    /// assert_eq!(sketch.count(), 2);
    /// assert_eq!(sketch.last_value(), Some(4));
    /// # Ok(())
    /// # }
    /// ```
    pub fn insert(&mut self, value: W) {
        Refusal::none(W::insert(&mut self.words, value));
    }

    /// Removes `value`, whether or not it was inserted. The count falls by 1 modulo 2^32. The last value becomes
    /// unknown where it equals the residue of `value`.
    ///
    /// # Examples
    ///
    /// ```
    /// use eddybridge::PowerSumQuackU32;
    ///
    /// # fn main() -> Result<(), eddybridge::Refusal> {
    /// let mut sketch = PowerSumQuackU32::new(2)?;
    /// sketch.insert(7);
    /// sketch.insert(9);
    /// sketch.remove(7);
    /// assert_eq!(sketch.last_value(), Some(9));
    /// sketch.remove(9);
    /// assert_eq!(sketch.last_value(), None);
    /// assert_eq!(sketch.count(), 0);
    /// sketch.insert(4294967295);
    /// sketch.remove(4294967295);
    /// assert_eq!(sketch.last_value(), None);
    /// # Ok(())
    /// # }
    /// ```
    pub fn remove(&mut self, value: W) {
        Refusal::none(W::remove(&mut self.words, value));
    }

    /// Subtracts `rhs` from this sketch. The last value becomes unknown.
    ///
    /// Where every value of `rhs` is also in this sketch, as often or more, the difference is the sketch of the values
    /// that `rhs` lacks.
    ///
    /// # Errors
    ///
    /// [`Refusal::ThresholdsDiffer`] where the thresholds differ.
    ///
    /// # Examples
    ///
    /// ```
    /// use eddybridge::{PowerSumQuackU32, Refusal};
    ///
    /// # fn main() -> Result<(), Refusal> {
    /// let mut sent = PowerSumQuackU32::new(4)?;
    /// let mut received = PowerSumQuackU32::new(4)?;
    /// for value in [30, 31, 32] {
    ///     sent.insert(value);
    /// }
    /// received.insert(31);
    /// sent.sub_assign(&received)?;
    /// assert_eq!(sent.decode_with_log(&[30, 31, 32])?, [30, 32]);
    ///
    /// let other = PowerSumQuackU32::new(5)?;
    /// assert_eq!(sent.sub_assign(&other), Err(Refusal::ThresholdsDiffer));
    /// # Ok(())
    /// # }
    /// ```
    pub fn sub_assign(&mut self, rhs: &Self) -> Result<(), Refusal> {
        Refusal::unless(W::sub_assign(&mut self.words, &rhs.words), ())
    }

    /// The difference of this sketch and `rhs`, with the smaller of the two thresholds and no last value.
    ///
    /// # Examples
    ///
    /// ```
    /// use eddybridge::PowerSumQuackU32;
    ///
    /// # fn main() -> Result<(), eddybridge::Refusal> {
    /// let mut sent = PowerSumQuackU32::new(8)?;
    /// sent.insert(5);
    /// let received = PowerSumQuackU32::new(2)?;
    /// let missing = sent.sub(&received);
    /// assert_eq!(missing.threshold(), 2);
    /// assert_eq!(missing.decode_with_log(&[4, 5])?, [5]);
    /// # Ok(())
    /// # }
    /// ```
    pub fn sub(&self, rhs: &Self) -> Self {
        let mut difference = Self::blank();
        Refusal::none(W::sub(&self.words, &rhs.words, &mut difference.words));
        difference
    }

    /// The negative of this sketch: the same threshold, each sum and the count negated, and no last value. What was put
    /// in counts as taken out, and what was taken out as put in.
    ///
    /// # Examples
    ///
    /// ```
    /// use eddybridge::PowerSumQuackU32;
    ///
    /// # fn main() -> Result<(), eddybridge::Refusal> {
    /// let mut sketch = PowerSumQuackU32::new(2)?;
    /// sketch.remove(5);
    /// let negated = sketch.negated();
    /// assert_eq!((negated.count(), negated.last_value()), (1, None));
    /// assert_eq!(negated.decode_with_log(&[4, 5])?, [5]);
    /// assert_eq!(negated.negated(), sketch);
    /// # Ok(())
    /// # }
    /// ```
    pub fn negated(&self) -> Self {
        let mut negated = Self::blank();
        Refusal::none(W::negate(&self.words, &mut negated.words));
        negated
    }

    /// The coefficients a1 to an, n being the count, of the polynomial whose roots are the values, x^n + a1·x^(n-1) +
    /// ... + an.
    ///
    /// # Errors
    ///
    /// [`Refusal::CountAboveThreshold`] where the count is above the threshold.
    ///
    /// # Examples
    ///
    /// ```
    /// use eddybridge::{field::Residue, PowerSumQuackU32};
    ///
    /// # fn main() -> Result<(), eddybridge::Refusal> {
    /// let mut sketch = PowerSumQuackU32::new(3)?;
    /// sketch.insert(10);
    /// sketch.insert(12);
    /// assert_eq!(sketch.to_coeffs()?, [-Residue::new(22), Residue::new(120)]); // x^2 - 22x + 120
    /// # Ok(())
    /// # }
    /// ```
    #[cfg(feature = "alloc")]
    pub fn to_coeffs(&self) -> Result<Vec<Residue<W>>, Refusal> {
        let mut coeffs = [W::default(); crate::MAX_THRESHOLD];
        let answer = W::to_coeffs(&self.words, &mut coeffs);
        let n = Refusal::unless(answer.refusal, answer.value)?;
        Ok(coeffs[..n].iter().map(|&coeff| Residue::answered(coeff)).collect())
    }

    /// The entries of `log` that are in the sketch, in the log's order: a vector of what
    /// [`decode_into`](Self::decode_into) writes, which says when the list is exact.
    ///
    /// # Errors
    ///
    /// [`Refusal::CountAboveThreshold`] where the count is above the threshold.
    ///
    /// # Examples
    ///
    /// ```
    /// use eddybridge::{PowerSumQuackU32, Refusal};
    ///
    /// # fn main() -> Result<(), Refusal> {
    /// let mut sketch = PowerSumQuackU32::new(1)?;
    /// sketch.insert(10);
    /// assert_eq!(sketch.decode_with_log(&[10, 11, 10])?, [10, 10]);
    /// sketch.insert(11);
    /// assert_eq!(sketch.decode_with_log(&[10, 11, 10]), Err(Refusal::CountAboveThreshold));
    /// # Ok(())
    /// # }
    /// ```
    #[cfg(feature = "alloc")]
    pub fn decode_with_log(&self, log: &[W]) -> Result<Vec<W>, Refusal> {
        let mut found = vec![W::default(); log.len()];
        let n = self.decode_into(log, &mut found)?;
        found.truncate(n);
        Ok(found)
    }

    /// Writes the entries of `log` that are in the sketch, as they stand in the log, in its order, to the front of `out`,
    /// and answers how many: those that are roots of the polynomial of the sums, and none at count 0. Places beyond them
    /// stay. `out` needs as many places as the log has entries, whatever is found.
    ///
    /// The list is exact as long as each residue was taken out at most as often as it was put in, and at most as many
    /// as the threshold are left in all, repeats counted. Then it has the entries whose residue is left, and no others.
    /// An entry is listed as often as it stands in the log, however often it is in the sketch. Where a residue was
    /// taken out more often than it was put in, no sketch can tell, and what is listed means nothing.
    ///
    /// # Errors
    ///
    /// - [`Refusal::CountAboveThreshold`] where the count is above the threshold;
    /// - [`Refusal::BufferTooShort`] where `out` is shorter than `log`.
    ///
    /// # Examples
    ///
    /// ```
    /// use eddybridge::PowerSumQuackU32;
    ///
    /// # fn main() -> Result<(), eddybridge::Refusal> {
    /// let mut sketch = PowerSumQuackU32::new(1)?;
    /// sketch.insert(10);
    /// let mut out = [0; 3];
    /// let n = sketch.decode_into(&[10, 11, 10], &mut out)?;
    /// assert_eq!(out[..n], [10, 10]);
    /// # Ok(())
    /// # }
    /// ```
    pub fn decode_into(&self, log: &[W], out: &mut [W]) -> Result<usize, Refusal> {
        let answer = W::decode_with_log(&self.words, log, out);
        Refusal::unless(answer.refusal, answer.value)
    }

    /// The entries of `got` that are surplus, in their order: a vector of what
    /// [`decode_surplus_into`](Self::decode_surplus_into) writes, which says when the list is exact.
    ///
    /// # Errors
    ///
    /// [`Refusal::CountAboveThreshold`] where the [`signed_count`](Self::signed_count) is negative and its size is above
    /// the threshold.
    ///
    /// # Examples
    ///
    /// ```
    /// use eddybridge::{PowerSumQuackU32, Refusal};
    ///
    /// # fn main() -> Result<(), Refusal> {
    /// let got = [4, 9, 1, 9];
    /// let mut sent = PowerSumQuackU32::new(2)?;
    /// let mut received = PowerSumQuackU32::new(2)?;
    /// for value in [1, 4, 9] {
    ///     sent.insert(value);
    /// }
    /// for value in got {
    ///     received.insert(value);
    /// }
    /// let mut surplus = sent.sub(&received);
    /// assert_eq!(surplus.signed_count(), -1);
    /// assert_eq!(surplus.decode_surplus_with_log(&got)?, [9, 9]);
    /// assert_eq!(surplus.decode_with_log(&[1, 4, 9]), Err(Refusal::CountAboveThreshold));
    ///
    /// surplus.remove(7);
    /// surplus.remove(8);
    /// assert_eq!(surplus.decode_surplus_with_log(&got), Err(Refusal::CountAboveThreshold));
    /// assert_eq!(sent.decode_surplus_with_log(&got)?, []);
    /// # Ok(())
    /// # }
    /// ```
    #[cfg(feature = "alloc")]
    pub fn decode_surplus_with_log(&self, got: &[W]) -> Result<Vec<W>, Refusal> {
        let mut found = vec![W::default(); got.len()];
        let n = self.decode_surplus_into(got, &mut found)?;
        found.truncate(n);
        Ok(found)
    }

    /// Writes the entries of `got`, the values that were taken out, that are surplus, as they stand there, in their order,
    /// to the front of `out`, and answers how many: those that [`decode_into`](Self::decode_into) lists for the
    /// [`negated`](Self::negated) sketch where the [`signed_count`](Self::signed_count) is negative, and none where it is
    /// 0 or more. Places beyond them stay. `out` needs as many places as `got` has entries, whatever is found.
    ///
    /// The list is exact as long as each residue was put in at most as often as it was taken out, and at most as many as
    /// the threshold are surplus in all, repeats counted. Then it has the entries whose residue was taken out more often
    /// than it was put in, and no others. An entry is listed as often as it stands in `got`. Where some residue was put in
    /// more often than it was taken out, and another less often, what this call and [`decode_into`](Self::decode_into)
    /// list means nothing.
    ///
    /// # Errors
    ///
    /// - [`Refusal::CountAboveThreshold`] where the signed count is negative and its size is above the threshold;
    /// - [`Refusal::BufferTooShort`] where `out` is shorter than `got`.
    ///
    /// # Examples
    ///
    /// ```
    /// use eddybridge::PowerSumQuackU32;
    ///
    /// # fn main() -> Result<(), eddybridge::Refusal> {
    /// let mut sketch = PowerSumQuackU32::new(1)?;
    /// sketch.remove(10);
    /// let mut out = [0; 3];
    /// let n = sketch.decode_surplus_into(&[10, 11, 10], &mut out)?;
    /// assert_eq!(out[..n], [10, 10]);
    /// # Ok(())
    /// # }
    /// ```
    pub fn decode_surplus_into(&self, got: &[W], out: &mut [W]) -> Result<usize, Refusal> {
        let answer = W::decode_surplus_with_log(&self.words, got, out);
        Refusal::unless(answer.refusal, answer.value)
    }

    /// Writes the sketch as a packet to the front of `buf`, and answers its length, the [`packet_len`](Self::packet_len)
    /// of the threshold. Bytes beyond it stay.
    ///
    /// The packet is little-endian on every machine: the count in four bytes, then the last value and the sums, in four
    /// bytes each at 32 bits and in two at 16 bits.
    ///
    /// # Errors
    ///
    /// - [`Refusal::NoLastValue`] where the sketch has no last value;
    /// - [`Refusal::BufferTooShort`] where `buf` is shorter than the packet.
    ///
    /// # Examples
    ///
    /// ```
    /// use eddybridge::{PowerSumQuackU16, PowerSumQuackU32};
    ///
    /// # fn main() -> Result<(), eddybridge::Refusal> {
    /// let mut sketch = PowerSumQuackU32::new(2)?;
    /// sketch.insert(1);
    /// sketch.insert(10);
    /// let mut buf = [0; PowerSumQuackU32::MAX_PACKET_LEN];
    /// let length = sketch.serialize(&mut buf)?;
    /// assert_eq!(buf[..length], [2, 0, 0, 0, 10, 0, 0, 0, 11, 0, 0, 0, 101, 0, 0, 0]);
    ///
    /// let mut small = PowerSumQuackU16::new(2)?;
    /// small.insert(1);
    /// small.insert(10);
    /// let length = small.serialize(&mut buf)?;
    /// assert_eq!(buf[..length], [2, 0, 0, 0, 10, 0, 11, 0, 101, 0]);
    /// # Ok(())
    /// # }
    /// ```
    pub fn serialize(&self, buf: &mut [u8]) -> Result<usize, Refusal> {
        let answer = W::serialize(&self.words, buf);
        Refusal::unless(answer.refusal, answer.value)
    }

    /// Writes the sketch as [`serialize`](Self::serialize) does, with the first `num_missing` sums where these are
    /// fewer than the threshold. The count is written unchanged.
    ///
    /// # Errors
    ///
    /// Those of [`serialize`](Self::serialize).
    ///
    /// # Examples
    ///
    /// ```
    /// use eddybridge::PowerSumQuackU32;
    ///
    /// # fn main() -> Result<(), eddybridge::Refusal> {
    /// let mut sketch = PowerSumQuackU32::new(2)?;
    /// sketch.insert(10);
    /// let mut buf = [0; 16];
    /// assert_eq!(sketch.serialize_with_hint(&mut buf, 0)?, 8);
    /// assert_eq!(sketch.serialize_with_hint(&mut buf, 1)?, 12);
    /// assert_eq!(sketch.serialize_with_hint(&mut buf, 5)?, 16);
    /// # Ok(())
    /// # }
    /// ```
    pub fn serialize_with_hint(&self, buf: &mut [u8], num_missing: usize) -> Result<usize, Refusal> {
        let answer = W::serialize_with_hint(&self.words, buf, num_missing);
        Refusal::unless(answer.refusal, answer.value)
    }

    /// Reads a packet. The threshold is the number of sums in `buf`, so `buf` has to end where the packet does; bytes at
    /// the end that make no whole sum are ignored.
    ///
    /// # Errors
    ///
    /// - [`Refusal::PacketTooShort`] where `buf` has fewer than 8 bytes at 32 bits, or 6 at 16 bits;
    /// - [`Refusal::SumsOutOfRange`] where it has no sum, or more than [`MAX_THRESHOLD`](crate::MAX_THRESHOLD);
    /// - [`Refusal::NotReduced`] where a sum is [`MODULUS`](Width::MODULUS) or more.
    ///
    /// # Examples
    ///
    /// ```
    /// use eddybridge::{PowerSumQuackU32, Refusal};
    ///
    /// # fn main() -> Result<(), Refusal> {
    /// let mut sketch = PowerSumQuackU32::new(2)?;
    /// sketch.insert(10);
    /// let mut buf = [0; 16];
    /// let length = sketch.serialize(&mut buf)?;
    /// assert_eq!(PowerSumQuackU32::deserialize(&buf[..length])?, sketch);
    /// assert_eq!(PowerSumQuackU32::deserialize(&buf[..8]), Err(Refusal::SumsOutOfRange));
    /// # Ok(())
    /// # }
    /// ```
    pub fn deserialize(buf: &[u8]) -> Result<Self, Refusal> {
        let mut read = Self::blank();
        Refusal::unless(W::deserialize(buf, &mut read.words), ())?;
        Ok(read)
    }

    /// The number of sums, and so the greatest number of values that can be decoded.
    ///
    /// # Examples
    ///
    /// ```
    /// # fn main() -> Result<(), eddybridge::Refusal> {
    /// assert_eq!(eddybridge::PowerSumQuackU32::new(32)?.threshold(), 32);
    /// # Ok(())
    /// # }
    /// ```
    pub fn threshold(&self) -> usize {
        self.words[sys::THRESHOLD].length()
    }

    /// The number of values inserted less the number removed, modulo 2^32.
    ///
    /// # Examples
    ///
    /// ```
    /// # fn main() -> Result<(), eddybridge::Refusal> {
    /// let mut sketch = eddybridge::PowerSumQuackU32::new(1)?;
    /// sketch.remove(1);
    /// assert_eq!(sketch.count(), 4294967295);
    /// # Ok(())
    /// # }
    /// ```
    pub fn count(&self) -> u32 {
        W::count(&self.words)
    }

    /// The [`count`](Self::count) as a signed number: below 2147483648 it is itself, otherwise the count less 4294967296.
    ///
    /// # Examples
    ///
    /// ```
    /// # fn main() -> Result<(), eddybridge::Refusal> {
    /// let mut sketch = eddybridge::PowerSumQuackU32::new(1)?;
    /// sketch.remove(1);
    /// assert_eq!(sketch.signed_count(), -1);
    /// # Ok(())
    /// # }
    /// ```
    pub fn signed_count(&self) -> i32 {
        W::signed_count(&self.words)
    }

    /// The residue of the value that was inserted last, where it is known. Removing it, subtracting and negating make it
    /// unknown.
    ///
    /// # Examples
    ///
    /// ```
    /// # fn main() -> Result<(), eddybridge::Refusal> {
    /// let mut sketch = eddybridge::PowerSumQuackU32::new(1)?;
    /// assert_eq!(sketch.last_value(), None);
    /// sketch.insert(3);
    /// assert_eq!(sketch.last_value(), Some(3));
    /// # Ok(())
    /// # }
    /// ```
    pub fn last_value(&self) -> Option<W> {
        (self.words[W::HAS_LAST] != W::default()).then_some(self.words[W::LAST])
    }

    fn power_sums(&self) -> &[W] {
        &self.words[W::SUMS..][..self.threshold()]
    }
}

impl<W: Width> fmt::Debug for PowerSumQuack<W> {
    fn fmt(&self, f: &mut fmt::Formatter<'_>) -> fmt::Result {
        f.debug_struct(W::SKETCH)
            .field("power_sums", &self.power_sums())
            .field("last_value", &self.last_value())
            .field("count", &self.count())
            .finish()
    }
}
