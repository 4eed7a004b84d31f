//! Arithmetic of a tower, by another way than the stand-ins: the pairs over pairs are the
//! polynomials in t modulo t^D − 3, t being the outermost u, its square the next one below.
//! The coefficient at place i belongs to the power of t that i's digits, read backwards, give.

use crate::case::El;

#[derive(Clone, Debug)]
pub struct Tower {
    modulus: u64,
    pub degree: usize,
    power: [usize; 8],
}

impl Tower {
    pub fn new(modulus: u32, degree: usize) -> Self {
        let digits = degree.trailing_zeros();
        let mut power = [0; 8];
        for (place, power) in power.iter_mut().enumerate().take(degree) {
            *power = (0..digits)
                .filter(|digit| place >> digit & 1 == 1)
                .map(|digit| 1 << (digits - 1 - digit))
                .sum();
        }
        Self {
            modulus: u64::from(modulus),
            degree,
            power,
        }
    }

    pub const fn modulus(&self) -> u32 {
        self.modulus as u32
    }

    /// A base element among the elements.
    pub fn embed(&self, value: u32) -> El {
        let mut element = El::default();
        element.0[0] = value;
        element
    }

    pub fn one(&self) -> El {
        self.embed(1)
    }

    fn each(&self, f: impl Fn(usize) -> u64) -> El {
        let mut element = El::default();
        for (place, coefficient) in element.0.iter_mut().enumerate().take(self.degree) {
            *coefficient = (f(place) % self.modulus) as u32;
        }
        element
    }

    pub fn add(&self, a: &El, b: &El) -> El {
        self.each(|i| u64::from(a.0[i]) + u64::from(b.0[i]))
    }

    pub fn sub(&self, a: &El, b: &El) -> El {
        self.each(|i| u64::from(a.0[i]) + self.modulus - u64::from(b.0[i]))
    }

    /// A base element times an element.
    pub fn scale(&self, factor: u32, a: &El) -> El {
        self.each(|i| u64::from(factor) * u64::from(a.0[i]))
    }

    pub fn mul(&self, a: &El, b: &El) -> El {
        let mut powers = [0u64; 16];
        for i in 0..self.degree {
            for j in 0..self.degree {
                powers[self.power[i] + self.power[j]] += u64::from(a.0[i]) * u64::from(b.0[j]);
            }
        }
        for high in self.degree..2 * self.degree {
            powers[high - self.degree] += 3 * powers[high];
        }
        self.each(|i| powers[self.power[i]])
    }

    /// The sum of the products of two lists.
    pub fn dot(&self, a: &[El], b: &[El]) -> El {
        a.iter()
            .zip(b)
            .fold(El::default(), |sum, (a, b)| self.add(&sum, &self.mul(a, b)))
    }

    /// The values at 0 and 1 of one variable, joined at r: a + r·(b − a).
    pub fn between(&self, a: &El, b: &El, r: &El) -> El {
        self.add(a, &self.mul(r, &self.sub(b, a)))
    }

    /// base·base in the base field.
    pub fn base_mul(&self, a: u32, b: u32) -> u32 {
        (u64::from(a) * u64::from(b) % self.modulus) as u32
    }
}
