//! Variable orders.

use p3_field::{ExtensionField, Field};
use p3_multilinear_util::point::Point;

use crate::constraints::Constraint;

/// What a sumcheck message holds: here h(0) and the coefficient of X².
#[derive(Clone, Copy, Debug, PartialEq, Eq)]
pub enum Basis {
    Evaluation,
}

/// Prefix binds the first free variable at each draw, Suffix the last.
#[derive(Clone, Copy, Debug, PartialEq, Eq)]
pub enum VariableOrder {
    Prefix,
    Suffix,
}

impl VariableOrder {
    /// The sum of all constraints' weights, a constraint of m variables being weighed at the
    /// last m draws, reversed under Suffix.
    pub fn eval_constraints_poly<F, EF>(
        self,
        constraints: &[Constraint<F, EF>],
        draws: &Point<EF>,
    ) -> EF
    where
        F: Field,
        EF: ExtensionField<F>,
    {
        let draws = draws.as_slice();
        constraints.iter().fold(EF::ZERO, |sum, constraint| {
            let last = Point::new(draws[draws.len() - constraint.num_variables()..].to_vec());
            let at = match self {
                Self::Prefix => last,
                Self::Suffix => last.reversed(),
            };
            sum + constraint.weight(at.as_slice())
        })
    }
}
