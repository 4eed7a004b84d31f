//! The claims of a run.

use core::marker::PhantomData;

use p3_challenger::fs::TranscriptField;
use p3_challenger::{FieldChallenger, draw_element};
use p3_field::ExtensionField;
use p3_multilinear_util::point::Point;

use crate::constraints::statement::EqStatement;
use crate::constraints::{Constraint, Statements};

/// Claims, each a point and the table's value there.
#[derive(Clone, Debug)]
pub struct Verifier<F, EF> {
    claims: EqStatement<EF>,
    _base: PhantomData<F>,
}

impl<F, EF> Verifier<F, EF>
where
    F: TranscriptField,
    EF: ExtensionField<F>,
{
    pub fn new(num_variables: usize, claims: Vec<(Vec<EF>, EF)>) -> Self {
        let mut statement = EqStatement::initialize(num_variables);
        for (point, value) in claims {
            statement.add_evaluated_constraint(Point::new(point), value);
        }
        Self {
            claims: statement,
            _base: PhantomData,
        }
    }

    /// Draws α.
    pub fn batching_challenge<Challenger: FieldChallenger<F>>(
        &self,
        challenger: &mut Challenger,
    ) -> EF {
        draw_element::<F, EF, _>(challenger)
    }

    /// The claims weighted by α^0, α^1, ….
    pub fn constraint(&self, alpha: EF) -> Constraint<F, EF> {
        Constraint::new(
            alpha,
            self.claims.num_variables(),
            vec![Statements::Eq(self.claims.clone())],
        )
    }
}
