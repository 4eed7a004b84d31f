//! Stand-in for `p3-sumcheck`: the rounds of a sumcheck, and the constraints that it carries.

use p3_challenger::fs::TranscriptField;
use p3_challenger::{FieldChallenger, GrindingChallenger, clears, draw_element, observe_element};
use p3_field::ExtensionField;
use p3_multilinear_util::point::Point;

use crate::strategy::Basis;

pub mod constraints;
pub mod layout;
pub mod strategy;

/// Why a sumcheck is refused.
#[derive(Clone, Copy, Debug, PartialEq, Eq)]
pub enum SumcheckError {
    /// Not as many messages as rounds.
    Count { expected: usize, actual: usize },
    /// Not one witness a round, or a witness where the difficulty is 0.
    Witnesses { expected: usize, actual: usize },
    /// A witness does not clear; rounds count from 0 inside this sumcheck.
    Grind { round: usize, bits: usize },
}

/// Opening evaluations of the adapter, which is not built.
#[derive(Clone, Debug)]
pub struct OpeningBatch<EF> {
    pub evaluations: Vec<EF>,
}

/// The messages h0 and h2 of each round, and the witnesses.
#[derive(Clone, Debug, Default)]
pub struct SumcheckData<F, EF> {
    pub messages: Vec<[EF; 2]>,
    pub witnesses: Vec<F>,
}

impl<F, EF> SumcheckData<F, EF>
where
    F: TranscriptField,
    EF: ExtensionField<F>,
{
    /// Counts first; then each round observes h0 and h2, grinds, draws r and takes h(r) for the
    /// claim c, with h(X) = h0 + (c − 2·h0 − h2)·X + h2·X².
    ///
    /// # Errors
    ///
    /// The first count or grinding that fails.
    pub fn verify_rounds<Challenger>(
        &self,
        challenger: &mut Challenger,
        claim: &mut EF,
        rounds: usize,
        pow_bits: usize,
        _basis: Basis,
    ) -> Result<Point<EF>, SumcheckError>
    where
        Challenger: FieldChallenger<F> + GrindingChallenger<Witness = F>,
    {
        challenger.mark_sumcheck();
        if self.messages.len() != rounds {
            return Err(SumcheckError::Count {
                expected: rounds,
                actual: self.messages.len(),
            });
        }
        let due = if pow_bits > 0 { rounds } else { 0 };
        if self.witnesses.len() != due {
            return Err(SumcheckError::Witnesses {
                expected: due,
                actual: self.witnesses.len(),
            });
        }
        let mut drawn = Vec::with_capacity(rounds);
        for (round, &[h0, h2]) in self.messages.iter().enumerate() {
            observe_element::<F, EF, _>(challenger, &h0);
            observe_element::<F, EF, _>(challenger, &h2);
            if pow_bits > 0 && !clears(challenger, pow_bits, self.witnesses[round]) {
                return Err(SumcheckError::Grind {
                    round,
                    bits: pow_bits,
                });
            }
            let r = draw_element::<F, EF, _>(challenger);
            *claim = h0 + (*claim - h0 - h0 - h2) * r + h2 * r * r;
            drawn.push(r);
        }
        Ok(Point::new(drawn))
    }
}

/// The closing sumcheck. One that is missing has no messages and no witnesses.
///
/// # Errors
///
/// As for the rounds.
pub fn verify_final_sumcheck_rounds<F, EF, Challenger>(
    data: Option<&SumcheckData<F, EF>>,
    challenger: &mut Challenger,
    claim: &mut EF,
    rounds: usize,
    pow_bits: usize,
    basis: Basis,
) -> Result<Point<EF>, SumcheckError>
where
    F: TranscriptField,
    EF: ExtensionField<F>,
    Challenger: FieldChallenger<F> + GrindingChallenger<Witness = F>,
{
    let missing = SumcheckData {
        messages: Vec::new(),
        witnesses: Vec::new(),
    };
    data.unwrap_or(&missing)
        .verify_rounds(challenger, claim, rounds, pow_bits, basis)
}
