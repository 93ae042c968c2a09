//! Arithmetic modulo the prime of a width.
use crate::Width;
use core::fmt;
use core::ops::{Add, AddAssign, Mul, MulAssign, Neg, Sub, SubAssign};
use eddybridge_sys as sys;

/// What the prime of a width leaves of a number: a number below it. `+`, `-` and `*` are those of the field.
///
/// ```
/// use eddybridge::field::Residue;
///
/// let (one, last) = (Residue::<u32>::new(1), Residue::new(4294967290));
/// assert_eq!(last + one, Residue::new(0));
/// assert_eq!(Residue::new(0) - one, last);
/// assert_eq!(last * last, one);
/// assert_eq!(-Residue::<u32>::new(22), Residue::new(4294967269));
/// assert_eq!(-Residue::<u16>::new(22), Residue::new(65499));
/// ```
#[derive(Clone, Copy, Debug, Default, PartialEq, Eq, PartialOrd, Ord, Hash)]
#[repr(transparent)]
pub struct Residue<W>(W);

impl<W: Width> Residue<W> {
    /// The prime.
    ///
    /// ```
    /// use eddybridge::field::Residue;
    ///
    /// assert_eq!(Residue::<u32>::MODULUS, 4294967291);
    /// assert_eq!(Residue::<u16>::MODULUS, 65521);
    /// ```
    pub const MODULUS: W = W::MODULUS;

    /// The residue of any number: `number` itself below [`MODULUS`](Self::MODULUS), otherwise `number - MODULUS`.
    ///
    /// ```
    /// use eddybridge::field::Residue;
    ///
    /// assert_eq!(Residue::<u32>::new(4294967290).value(), 4294967290);
    /// assert_eq!(Residue::<u32>::new(4294967291).value(), 0);
    /// assert_eq!(Residue::<u32>::new(4294967295).value(), 4);
    /// assert_eq!(Residue::<u16>::new(65535).value(), 14);
    /// ```
    pub fn new(number: W) -> Self {
        Self::alone(W::field_reduce(number))
    }

    /// The residue as a number below [`MODULUS`](Self::MODULUS).
    ///
    /// ```
    /// assert_eq!(eddybridge::field::Residue::<u16>::new(7).value(), 7);
    /// ```
    pub const fn value(self) -> W {
        self.0
    }

    /// The inverse, the residue whose product with this one is 1. The inverse of 0 answers 0.
    ///
    /// ```
    /// use eddybridge::field::Residue;
    ///
    /// let two = Residue::<u32>::new(2);
    /// assert_eq!(two.inv(), Residue::new(2147483646));
    /// assert_eq!(two * two.inv(), Residue::new(1));
    /// assert_eq!(Residue::<u32>::new(0).inv(), Residue::new(0));
    /// assert_eq!(Residue::<u16>::new(2).inv(), Residue::new(32761));
    /// ```
    pub fn inv(self) -> Self {
        Self::alone(W::field_inv(self.0))
    }

    /// The power to `exponent`, which is not reduced, with the number of multiplications made. The power of exponent 0
    /// is 1, also for 0.
    ///
    /// ```
    /// use eddybridge::field::Residue;
    ///
    /// let two = Residue::<u32>::new(2);
    /// assert_eq!(two.pow(10).value, Residue::new(1024));
    /// assert_eq!(two.pow(10).multiplications, 4);
    /// assert_eq!(Residue::<u16>::new(0).pow(0).value, Residue::new(1));
    /// ```
    pub fn pow(self, exponent: W) -> Power<W> {
        let sys::Power { value, multiplications } = W::field_pow(self.0, exponent);
        Power { value: Self(value), multiplications }
    }

    /// The number of multiplications that [`pow`](Self::pow) makes for `exponent`, without making them.
    ///
    /// ```
    /// use eddybridge::field::Residue;
    ///
    /// assert_eq!(Residue::<u32>::pow_multiplications(10), 4);
    /// assert_eq!(Residue::<u32>::pow_multiplications(4294967295), 62);
    /// assert_eq!(Residue::<u16>::pow_multiplications(65535), 30);
    /// ```
    pub fn pow_multiplications(exponent: W) -> u32 {
        W::field_pow_multiplications(exponent)
    }

    /// Residues as the numbers that they are.
    #[allow(unsafe_code)]
    pub(crate) fn numbers(residues: &[Self]) -> &[W] {
        // SAFETY: a residue is laid out as its number, and the slice lent is as long and lives as long.
        unsafe { core::slice::from_raw_parts(residues.as_ptr().cast(), residues.len()) }
    }

    /// The residue of a number that a call answers as one.
    pub(crate) const fn answered(number: W) -> Self {
        Self(number)
    }

    /// The residue that a call answers alone.
    fn alone(number: u32) -> Self {
        Self(W::answered(number))
    }
}

impl<W: Width> Add for Residue<W> {
    type Output = Self;

    fn add(self, other: Self) -> Self {
        Self::alone(W::field_add(self.0, other.0))
    }
}

impl<W: Width> Sub for Residue<W> {
    type Output = Self;

    fn sub(self, other: Self) -> Self {
        Self::alone(W::field_sub(self.0, other.0))
    }
}

impl<W: Width> Mul for Residue<W> {
    type Output = Self;

    fn mul(self, other: Self) -> Self {
        Self::alone(W::field_mul(self.0, other.0))
    }
}

impl<W: Width> Neg for Residue<W> {
    type Output = Self;

    fn neg(self) -> Self {
        Self::alone(W::field_neg(self.0))
    }
}

impl<W: Width> AddAssign for Residue<W> {
    fn add_assign(&mut self, other: Self) {
        *self = *self + other;
    }
}

impl<W: Width> SubAssign for Residue<W> {
    fn sub_assign(&mut self, other: Self) {
        *self = *self - other;
    }
}

impl<W: Width> MulAssign for Residue<W> {
    fn mul_assign(&mut self, other: Self) {
        *self = *self * other;
    }
}

impl<W: Width> From<W> for Residue<W> {
    fn from(number: W) -> Self {
        Self::new(number)
    }
}

impl From<Residue<u32>> for u32 {
    fn from(residue: Residue<u32>) -> Self {
        residue.0
    }
}

impl From<Residue<u16>> for u16 {
    fn from(residue: Residue<u16>) -> Self {
        residue.0
    }
}

impl<W: Width> fmt::Display for Residue<W> {
    fn fmt(&self, f: &mut fmt::Formatter<'_>) -> fmt::Result {
        fmt::Display::fmt(&self.0, f)
    }
}

/// A power, and the number of field multiplications made for it.
///
/// ```
/// use eddybridge::field::{Power, Residue};
///
/// assert_eq!(Residue::<u32>::new(2).pow(10), Power { value: Residue::new(1024), multiplications: 4 });
/// ```
#[derive(Clone, Copy, Debug, PartialEq, Eq)]
pub struct Power<W> {
    /// The power.
    pub value: Residue<W>,
    /// The number of field multiplications made.
    pub multiplications: u32,
}
