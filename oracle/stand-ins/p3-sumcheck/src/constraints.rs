//! Constraints: claims about a table, weighted by the powers of one challenge.

use p3_field::{ExtensionField, Field};

use self::statement::{EqStatement, SelectStatement};

/// A group of claims of one kind.
#[derive(Clone, Debug)]
pub enum Statements<F, EF> {
    Eq(EqStatement<EF>),
    Select(SelectStatement<F, EF>),
}

/// Groups of claims of one table, weighted by successive powers.
#[derive(Clone, Debug)]
pub struct Constraint<F, EF> {
    challenge: EF,
    /// The power of the first claim.
    first: EF,
    num_variables: usize,
    statements: Vec<Statements<F, EF>>,
}

impl<F: Field, EF: ExtensionField<F>> Constraint<F, EF> {
    /// Claims weighted by the powers 0, 1, ….
    pub fn new(challenge: EF, num_variables: usize, statements: Vec<Statements<F, EF>>) -> Self {
        Self {
            challenge,
            first: EF::ONE,
            num_variables,
            statements,
        }
    }

    /// Claims weighted by the powers 1, 2, …; the power 0 is the carried claim's.
    pub fn new_with_existing_claim(
        challenge: EF,
        num_variables: usize,
        statements: Vec<Statements<F, EF>>,
    ) -> Self {
        Self {
            first: challenge,
            ..Self::new(challenge, num_variables, statements)
        }
    }

    pub fn num_variables(&self) -> usize {
        self.num_variables
    }

    /// Adds the weighted sum of the claimed values.
    pub fn combine_evals(&self, claim: &mut EF) {
        *claim = *claim + self.weighted(Statements::values);
    }

    /// The weighted sum of the claims' weights at a point.
    pub fn weight(&self, at: &[EF]) -> EF {
        self.weighted(|group| group.weights(at))
    }

    fn weighted(&self, of: impl Fn(&Statements<F, EF>) -> Vec<EF>) -> EF {
        let mut power = self.first;
        let mut sum = EF::ZERO;
        for value in self.statements.iter().flat_map(of) {
            sum = sum + power * value;
            power = power * self.challenge;
        }
        sum
    }
}

impl<F: Field, EF: ExtensionField<F>> Statements<F, EF> {
    /// The claimed values, in order.
    fn values(&self) -> Vec<EF> {
        match self {
            Self::Eq(group) => group.values(),
            Self::Select(group) => group.values(),
        }
    }

    /// The claims' weights at a point, in order.
    fn weights(&self, at: &[EF]) -> Vec<EF> {
        match self {
            Self::Eq(group) => group.weights(at),
            Self::Select(group) => group.weights(at),
        }
    }
}

pub mod statement {
    use p3_field::{ExtensionField, Field};
    use p3_multilinear_util::point::Point;
    use p3_multilinear_util::poly::Poly;
    use p3_multilinear_util::weights::{eq, select};

    /// Claims that a table has a value at a point.
    #[derive(Clone, Debug)]
    pub struct EqStatement<EF> {
        num_variables: usize,
        claims: Vec<(Point<EF>, EF)>,
    }

    impl<EF> EqStatement<EF> {
        pub const fn initialize(num_variables: usize) -> Self {
            Self {
                num_variables,
                claims: Vec::new(),
            }
        }

        pub const fn num_variables(&self) -> usize {
            self.num_variables
        }

        /// # Panics
        ///
        /// When the point has another number of coordinates.
        pub fn add_evaluated_constraint(&mut self, point: Point<EF>, value: EF) {
            assert_eq!(
                point.as_slice().len(),
                self.num_variables,
                "a point of another length"
            );
            self.claims.push((point, value));
        }
    }

    impl<EF: Field> EqStatement<EF> {
        pub(crate) fn values(&self) -> Vec<EF> {
            self.claims.iter().map(|&(_, value)| value).collect()
        }

        pub(crate) fn weights(&self, at: &[EF]) -> Vec<EF> {
            self.claims
                .iter()
                .map(|(point, _)| eq(point.as_slice(), at))
                .collect()
        }
    }

    /// Claims that the sum of select(point, x)·g(x) has a value.
    #[derive(Clone, Debug)]
    pub struct SelectStatement<F, EF> {
        num_variables: usize,
        claims: Vec<(Point<F>, EF)>,
    }

    impl<F: Field, EF: ExtensionField<F>> SelectStatement<F, EF> {
        pub const fn initialize(num_variables: usize) -> Self {
            Self {
                num_variables,
                claims: Vec::new(),
            }
        }

        /// A univariate answer stands for its expansion.
        pub fn add_constraint(&mut self, var: F, value: EF) {
            self.add_point_constraint(
                Point::expand_from_univariate(var, self.num_variables),
                value,
            );
        }

        /// # Panics
        ///
        /// When the point has another number of coordinates.
        pub fn add_point_constraint(&mut self, point: Point<F>, value: EF) {
            assert_eq!(
                point.as_slice().len(),
                self.num_variables,
                "a point of another length"
            );
            self.claims.push((point, value));
        }

        /// Whether every claim is true of the table.
        pub fn verify(&self, table: &Poly<EF>) -> bool {
            self.claims
                .iter()
                .all(|(point, value)| table.select_sum::<F>(point.as_slice()) == *value)
        }

        pub(crate) fn values(&self) -> Vec<EF> {
            self.claims.iter().map(|&(_, value)| value).collect()
        }

        pub(crate) fn weights(&self, at: &[EF]) -> Vec<EF> {
            self.claims
                .iter()
                .map(|(point, _)| {
                    let lifted: Vec<EF> = point.as_slice().iter().map(|&p| EF::from(p)).collect();
                    select(&lifted, at)
                })
                .collect()
        }
    }
}
