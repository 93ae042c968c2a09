//! Why a call refuses.
use core::error::Error;
use core::fmt;
use eddybridge_sys as sys;

/// Why a call refuses what it was given. A refused call changes nothing.
///
/// Every refusal has a number, the same at each boundary of the project: here, in C, and in the output of the desk
/// program. Later versions may add refusals.
///
/// # Examples
///
/// ```
/// use eddybridge::{PowerSumQuackU32, Refusal};
///
/// let refusal = PowerSumQuackU32::new(33).unwrap_err();
/// assert_eq!(refusal, Refusal::ThresholdOutOfRange);
/// assert_eq!(refusal.number(), 1);
/// assert_eq!(refusal.to_string(), "the threshold is 0 or above 32 (refusal 1)");
/// ```
#[derive(Clone, Copy, Debug, PartialEq, Eq, Hash)]
#[non_exhaustive]
#[repr(u32)]
pub enum Refusal {
    /// 1: a sketch is to be made with a threshold of 0 or above 32.
    ThresholdOutOfRange = sys::THRESHOLD_OUT_OF_RANGE,
    /// 2: the thresholds of a subtraction in place differ.
    ThresholdsDiffer = sys::THRESHOLDS_DIFFER,
    /// 3: a sketch without a last value is to be written.
    NoLastValue = sys::NO_LAST_CODE,
    /// 4: coefficients or a decoding are asked of a sketch whose count is above its threshold, or a decoding of the
    /// surplus of one whose signed count is further below 0 than its threshold; or
    /// [`eval_precompute`](crate::eval_precompute) is given more than 32 coefficients.
    CountAboveThreshold = sys::COUNT_ABOVE_THRESHOLD,
    /// 5: the buffer to write into is shorter than the packet, or than the log or the got values of a decoding.
    BufferTooShort = sys::BUFFER_TOO_SHORT,
    /// 6: the packet to read has fewer bytes than a count and a last value: 8 at 32 bits, 6 at 16 bits.
    PacketTooShort = sys::PACKET_TOO_SHORT,
    /// 7: the packet to read has no sum, or more than 32.
    SumsOutOfRange = sys::SUMS_OUT_OF_RANGE,
    /// 8: a sum of the packet to read is the modulus or more.
    NotReduced = sys::NOT_REDUCED,
    /// 9: an input line of the desk program is not as prescribed. No call of this crate gives it.
    BadLine = 9,
    /// 10: the log of the desk program, or its bag, has an 8,193rd line. No call of this crate gives it.
    LogTooLong = 10,
    /// 11: a polynomial without coefficients is to be evaluated.
    NoCoefficient = sys::NO_COEFFICIENT,
    /// 12: a sketch is not well formed. Every [`PowerSumQuack`](crate::PowerSumQuack) is, so no call of this crate gives
    /// it.
    NotWellFormed = sys::NOT_WELL_FORMED,
}

impl Refusal {
    const ALL: [Self; 12] = [
        Self::ThresholdOutOfRange,
        Self::ThresholdsDiffer,
        Self::NoLastValue,
        Self::CountAboveThreshold,
        Self::BufferTooShort,
        Self::PacketTooShort,
        Self::SumsOutOfRange,
        Self::NotReduced,
        Self::BadLine,
        Self::LogTooLong,
        Self::NoCoefficient,
        Self::NotWellFormed,
    ];

    /// What a call gives, unless the number that it answers is a refusal's.
    ///
    /// # Panics
    ///
    /// On a number that is no refusal's: the archive that was linked is then not of this version.
    pub(crate) fn unless<T>(number: u32, given: T) -> Result<T, Self> {
        if number == sys::OK {
            return Ok(given);
        }
        Err(Self::from_number(number).unwrap_or_else(|| panic!("the archive answers {number}, which is no refusal")))
    }

    /// Passes over the number that a call answers which refuses no well-formed sketch.
    ///
    /// # Panics
    ///
    /// On any other number than 0: the archive that was linked is then not of this version.
    pub(crate) fn none(number: u32) {
        assert!(number == sys::OK, "the archive refuses a well-formed sketch by {number}");
    }

    /// The refusal's number.
    ///
    /// # Examples
    ///
    /// ```
    /// use eddybridge::Refusal;
    ///
    /// assert_eq!(Refusal::CountAboveThreshold.number(), 4);
    /// ```
    pub fn number(self) -> u32 {
        self as u32
    }

    /// The refusal of a number, as the desk program prints it after `refusal=`. 0 and unknown numbers have none.
    ///
    /// # Examples
    ///
    /// ```
    /// use eddybridge::Refusal;
    ///
    /// assert_eq!(Refusal::from_number(9), Some(Refusal::BadLine));
    /// assert_eq!(Refusal::from_number(0), None);
    /// ```
    pub fn from_number(number: u32) -> Option<Self> {
        Self::ALL.into_iter().find(|refusal| refusal.number() == number)
    }

    fn reason(self) -> &'static str {
        match self {
            Self::ThresholdOutOfRange => "the threshold is 0 or above 32",
            Self::ThresholdsDiffer => "the thresholds differ",
            Self::NoLastValue => "the sketch has no last value",
            Self::CountAboveThreshold => {
                "the count, or the size of a negative one, is above the threshold, or there are more than 32 coefficients"
            }
            Self::BufferTooShort => "the buffer is too short",
            Self::PacketTooShort => "the packet is shorter than a count and a last value",
            Self::SumsOutOfRange => "the packet has no sum or more than 32",
            Self::NotReduced => "a sum or a coefficient is the modulus or more",
            Self::BadLine => "a line is not as prescribed",
            Self::LogTooLong => "the log or the bag has more than 8,192 lines",
            Self::NoCoefficient => "the polynomial has no coefficient",
            Self::NotWellFormed => "the sketch is not well formed",
        }
    }
}

impl fmt::Display for Refusal {
    fn fmt(&self, f: &mut fmt::Formatter<'_>) -> fmt::Result {
        write!(f, "{} (refusal {})", self.reason(), self.number())
    }
}

impl Error for Refusal {}
