//! Stand-in for `p3-multilinear-util`: points and tables.
//!
//! Corner x of a table of n variables has the binary digits of x, highest first.

pub mod point {
    use p3_field::Field;

    /// Coordinates, first variable first.
    #[derive(Clone, Debug, PartialEq, Eq)]
    pub struct Point<F>(Vec<F>);

    impl<F> Point<F> {
        pub const fn new(coordinates: Vec<F>) -> Self {
            Self(coordinates)
        }

        pub fn as_slice(&self) -> &[F] {
            &self.0
        }
    }

    impl<F: Field> Point<F> {
        /// (v^(2^(n−1)), …, v², v).
        pub fn expand_from_univariate(v: F, num_variables: usize) -> Self {
            let mut squares = Vec::with_capacity(num_variables);
            let mut square = v;
            for _ in 0..num_variables {
                squares.push(square);
                square = square * square;
            }
            squares.reverse();
            Self(squares)
        }

        /// The same coordinates, last first.
        #[must_use]
        pub fn reversed(&self) -> Self {
            Self(self.0.iter().rev().copied().collect())
        }
    }

    impl<F> IntoIterator for Point<F> {
        type Item = F;
        type IntoIter = std::vec::IntoIter<F>;

        fn into_iter(self) -> Self::IntoIter {
            self.0.into_iter()
        }
    }
}

pub mod poly {
    use p3_field::{ExtensionField, Field};

    use crate::point::Point;
    use crate::weights;

    /// A table of 2^n values, corner by corner.
    #[derive(Clone, Debug, PartialEq, Eq)]
    pub struct Poly<F>(Vec<F>);

    impl<F> Poly<F> {
        pub const fn new(values: Vec<F>) -> Self {
            Self(values)
        }

        pub fn as_slice(&self) -> &[F] {
            &self.0
        }
    }

    impl<EF: Field> Poly<EF> {
        /// The table's value at a point: the sum of eq(point, x)·g(x).
        pub fn eval_ext<F>(&self, point: &Point<EF>) -> EF
        where
            F: Field,
            EF: ExtensionField<F>,
        {
            weights::sum(&self.0, &weights::eq_at_corners(point.as_slice()))
        }

        /// The sum of select(point, x)·g(x).
        pub fn select_sum<F>(&self, point: &[F]) -> EF
        where
            F: Field,
            EF: ExtensionField<F>,
        {
            let at: Vec<EF> = point.iter().map(|&p| EF::from(p)).collect();
            weights::sum(&self.0, &weights::select_at_corners(&at))
        }
    }
}

pub mod weights {
    use p3_field::Field;

    /// The product of p_j·x_j + (1 − p_j)(1 − x_j).
    pub fn eq<F: Field>(p: &[F], x: &[F]) -> F {
        assert_eq!(p.len(), x.len(), "a point of another length");
        p.iter().zip(x).fold(F::ONE, |product, (&p, &x)| {
            product * (p * x + (F::ONE - p) * (F::ONE - x))
        })
    }

    /// The product of 1 − x_j + x_j·p_j.
    pub fn select<F: Field>(p: &[F], x: &[F]) -> F {
        assert_eq!(p.len(), x.len(), "a point of another length");
        p.iter()
            .zip(x)
            .fold(F::ONE, |product, (&p, &x)| product * (F::ONE - x + x * p))
    }

    /// eq(p, x) at every corner x.
    pub fn eq_at_corners<F: Field>(p: &[F]) -> Vec<F> {
        at_corners(p, |p| (F::ONE - p, p))
    }

    /// select(p, x) at every corner x.
    pub fn select_at_corners<F: Field>(p: &[F]) -> Vec<F> {
        at_corners(p, |p| (F::ONE, p))
    }

    /// The products, corner by corner, of each coordinate's factor at digit 0 or 1.
    fn at_corners<F: Field>(p: &[F], factors: impl Fn(F) -> (F, F)) -> Vec<F> {
        let mut products = vec![F::ONE];
        for &coordinate in p {
            let (zero, one) = factors(coordinate);
            products = products
                .iter()
                .flat_map(|&product| [product * zero, product * one])
                .collect();
        }
        products
    }

    /// The sum of the products of two lists of one length.
    pub fn sum<F: Field>(values: &[F], weights: &[F]) -> F {
        assert_eq!(values.len(), weights.len(), "a table of another length");
        values
            .iter()
            .zip(weights)
            .fold(F::ZERO, |sum, (&value, &weight)| sum + value * weight)
    }
}
