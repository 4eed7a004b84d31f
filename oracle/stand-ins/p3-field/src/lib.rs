//! Stand-in for `p3-field`: the numbers below a prime and the towers of pairs over them.
//!
//! - A base field is the numbers below 257 or below 65,537, with the non-square 3.
//! - A pair (a, b) means a + b·u with u² the non-square of the field below; u is the non-square
//!   of the pairs.
//! - An extension of degree D has D coefficients, a's before b's.

use core::fmt;
use core::ops::{Add, Mul, Sub};

/// Zero, one, sum, difference, product, and a non-square.
pub trait Field:
    Copy
    + PartialEq
    + Eq
    + fmt::Debug
    + fmt::Display
    + Send
    + Sync
    + 'static
    + Add<Output = Self>
    + Sub<Output = Self>
    + Mul<Output = Self>
{
    const ZERO: Self;
    const ONE: Self;
    /// An element that is not a square.
    const NON_SQUARE: Self;

    /// The length of the largest element in bits.
    fn bits() -> usize;

    /// The power with exponent `n`, by squaring.
    #[must_use]
    fn exp_u64(self, n: u64) -> Self {
        let mut power = Self::ONE;
        for place in (0..u64::BITS).rev() {
            power = power * power;
            if n >> place & 1 == 1 {
                power = power * self;
            }
        }
        power
    }
}

/// A field over the base field `F`, with its coefficients.
pub trait ExtensionField<F: Field>: Field + From<F> {
    /// Number of coefficients.
    const DEGREE: usize;
    /// Whether this is the base field itself, and not a field made over it.
    const IS_BASE: bool;

    /// The coefficients, a's before b's.
    fn coefficients(&self) -> Vec<F>;

    /// The element with these coefficients.
    fn from_coefficients(coefficients: &[F]) -> Self;
}

/// A field with a generator of its largest group of power-of-two order.
pub trait TwoAdicField: Field {
    /// Logarithm of that order. Above the base fields only the base's own group is meant.
    const TWO_ADICITY: usize;

    /// A generator of the group of 2^bits elements.
    fn two_adic_generator(bits: usize) -> Self;
}

/// The numbers below the prime `P`.
#[derive(Clone, Copy, PartialEq, Eq, Debug)]
pub struct Residue<const P: u32>(u32);

impl<const P: u32> Residue<P> {
    /// The residue of a number.
    #[must_use]
    pub const fn new(value: u32) -> Self {
        Self(value % P)
    }

    /// The number itself, below `P`.
    #[must_use]
    pub const fn value(self) -> u32 {
        self.0
    }
}

impl<const P: u32> fmt::Display for Residue<P> {
    fn fmt(&self, f: &mut fmt::Formatter<'_>) -> fmt::Result {
        write!(f, "{}", self.0)
    }
}

impl<const P: u32> Add for Residue<P> {
    type Output = Self;
    fn add(self, other: Self) -> Self {
        Self((self.0 + other.0) % P)
    }
}

impl<const P: u32> Sub for Residue<P> {
    type Output = Self;
    fn sub(self, other: Self) -> Self {
        Self((self.0 + P - other.0) % P)
    }
}

impl<const P: u32> Mul for Residue<P> {
    type Output = Self;
    fn mul(self, other: Self) -> Self {
        Self((u64::from(self.0) * u64::from(other.0) % u64::from(P)) as u32)
    }
}

impl<const P: u32> Field for Residue<P> {
    const ZERO: Self = Self(0);
    const ONE: Self = Self(1);
    const NON_SQUARE: Self = Self(3);

    fn bits() -> usize {
        (u32::BITS - (P - 1).leading_zeros()) as usize
    }
}

impl<const P: u32> ExtensionField<Self> for Residue<P> {
    const DEGREE: usize = 1;
    const IS_BASE: bool = true;

    fn coefficients(&self) -> Vec<Self> {
        vec![*self]
    }

    fn from_coefficients(coefficients: &[Self]) -> Self {
        assert_eq!(coefficients.len(), 1);
        coefficients[0]
    }
}

impl<const P: u32> TwoAdicField for Residue<P> {
    const TWO_ADICITY: usize = (P - 1).trailing_zeros() as usize;

    fn two_adic_generator(bits: usize) -> Self {
        assert!(bits <= Self::TWO_ADICITY, "no group of 2^{bits} elements");
        (bits..Self::TWO_ADICITY).fold(Self::NON_SQUARE, |g, _| g * g)
    }
}

/// The extension of degree 1 as a field of its own: the base field's numbers under another name.
///
/// What is drawn or sent in the extension field is so described in the separator, at degree 1
/// too. With the base field itself in its place the crate could not tell the two apart.
#[derive(Clone, Copy, PartialEq, Eq, Debug)]
pub struct Single<F>(pub F);

impl<F: Field> fmt::Display for Single<F> {
    fn fmt(&self, f: &mut fmt::Formatter<'_>) -> fmt::Result {
        fmt::Display::fmt(&self.0, f)
    }
}

impl<F: Field> Add for Single<F> {
    type Output = Self;
    fn add(self, other: Self) -> Self {
        Self(self.0 + other.0)
    }
}

impl<F: Field> Sub for Single<F> {
    type Output = Self;
    fn sub(self, other: Self) -> Self {
        Self(self.0 - other.0)
    }
}

impl<F: Field> Mul for Single<F> {
    type Output = Self;
    fn mul(self, other: Self) -> Self {
        Self(self.0 * other.0)
    }
}

impl<F: Field> Field for Single<F> {
    const ZERO: Self = Self(F::ZERO);
    const ONE: Self = Self(F::ONE);
    const NON_SQUARE: Self = Self(F::NON_SQUARE);

    fn bits() -> usize {
        F::bits()
    }
}

impl<const P: u32> From<Residue<P>> for Single<Residue<P>> {
    fn from(value: Residue<P>) -> Self {
        Self(value)
    }
}

impl<const P: u32> ExtensionField<Residue<P>> for Single<Residue<P>> {
    const DEGREE: usize = 1;
    const IS_BASE: bool = false;

    fn coefficients(&self) -> Vec<Residue<P>> {
        vec![self.0]
    }

    fn from_coefficients(coefficients: &[Residue<P>]) -> Self {
        assert_eq!(coefficients.len(), 1);
        Self(coefficients[0])
    }
}

impl<F: TwoAdicField> TwoAdicField for Single<F> {
    const TWO_ADICITY: usize = F::TWO_ADICITY;

    fn two_adic_generator(bits: usize) -> Self {
        Self(F::two_adic_generator(bits))
    }
}

/// The pair (a, b), meaning a + b·u with u² the non-square below.
#[derive(Clone, Copy, PartialEq, Eq, Debug)]
pub struct Pair<E>(pub E, pub E);

impl<E: Field> fmt::Display for Pair<E> {
    fn fmt(&self, f: &mut fmt::Formatter<'_>) -> fmt::Result {
        write!(f, "{} {}", self.0, self.1)
    }
}

impl<E: Field> Add for Pair<E> {
    type Output = Self;
    fn add(self, other: Self) -> Self {
        Self(self.0 + other.0, self.1 + other.1)
    }
}

impl<E: Field> Sub for Pair<E> {
    type Output = Self;
    fn sub(self, other: Self) -> Self {
        Self(self.0 - other.0, self.1 - other.1)
    }
}

impl<E: Field> Mul for Pair<E> {
    type Output = Self;
    fn mul(self, other: Self) -> Self {
        Self(
            self.0 * other.0 + E::NON_SQUARE * (self.1 * other.1),
            self.0 * other.1 + self.1 * other.0,
        )
    }
}

impl<E: Field> Field for Pair<E> {
    const ZERO: Self = Self(E::ZERO, E::ZERO);
    const ONE: Self = Self(E::ONE, E::ZERO);
    const NON_SQUARE: Self = Self(E::ZERO, E::ONE);

    fn bits() -> usize {
        2 * E::bits()
    }
}

impl<const P: u32, E: ExtensionField<Residue<P>>> From<Residue<P>> for Pair<E> {
    fn from(value: Residue<P>) -> Self {
        Self(E::from(value), E::ZERO)
    }
}

impl<const P: u32, E: ExtensionField<Residue<P>>> ExtensionField<Residue<P>> for Pair<E> {
    const DEGREE: usize = 2 * E::DEGREE;
    const IS_BASE: bool = false;

    fn coefficients(&self) -> Vec<Residue<P>> {
        let mut all = self.0.coefficients();
        all.extend(self.1.coefficients());
        all
    }

    fn from_coefficients(coefficients: &[Residue<P>]) -> Self {
        let (a, b) = coefficients.split_at(E::DEGREE);
        Self(E::from_coefficients(a), E::from_coefficients(b))
    }
}

impl<E: TwoAdicField> TwoAdicField for Pair<E> {
    const TWO_ADICITY: usize = E::TWO_ADICITY;

    fn two_adic_generator(bits: usize) -> Self {
        Self(E::two_adic_generator(bits), E::ZERO)
    }
}
