//! What the crate answers to a case.

use std::cell::RefCell;
use std::panic::{AssertUnwindSafe, catch_unwind};

use p3_field::{ExtensionField, Pair, Residue, Single, TwoAdicField};
use p3_multilinear_util::poly::Poly;
use p3_sumcheck::layout::Verifier as LayoutVerifier;
use p3_sumcheck::strategy::VariableOrder;
use p3_sumcheck::{SumcheckData, SumcheckError};
use p3_whir::domain::WhirDomain;
use p3_whir::given::{Given, configuration};
use p3_whir::parameters::{ProtocolParameters, RoundConfig, SecurityAssumption, TerminalBudget};
use p3_whir::pcs::proof::{QueryOpenings, SharedProofOpening, WhirProof, WhirRoundProof};
use p3_whir::pcs::verifier::WhirVerifier;
use p3_whir::pcs::verifier::errors::VerifierError;
use p3_whir::transcript::WhirShape;

use crate::case::{Call, Case, Config, DomainKind, El, Opening, Order, RowKind, Stated, Sumcheck};
use crate::domain::{Listed, Subgroup};
use crate::rules;
use crate::scheme::Scheme;
use crate::sponge::{Recorder, Sponge};

/// An answer: who gave it, its words, the sponge afterwards, and the calls made on it.
#[derive(Clone, Debug)]
pub struct Verdict {
    pub by: &'static str,
    pub answer: String,
    pub sponge: Sponge,
    pub calls: Vec<Call>,
}

impl Verdict {
    fn untouched(by: &'static str, answer: String, sponge: Sponge) -> Self {
        Self {
            by,
            answer,
            sponge,
            calls: Vec::new(),
        }
    }

    pub fn stated(&self) -> Stated {
        Stated {
            by: self.by.into(),
            answer: self.answer.clone(),
            sponge_after: self.sponge.text(),
        }
    }

    pub fn accepted(&self) -> bool {
        self.answer.starts_with("accepted")
    }

    /// The refusal's number, 0 where it is accepted and 99 for a panic.
    pub fn number(&self) -> u32 {
        let mut words = self.answer.split(' ');
        match words.next() {
            Some("accepted") => 0,
            Some("refused") => words
                .next()
                .and_then(|word| word.parse().ok())
                .unwrap_or(98),
            _ => 99,
        }
    }
}

/// The answer on a new sponge, after the case's history.
pub fn judge(case: &Case) -> Verdict {
    judge_on(case, Sponge::new(case.sponge))
}

/// The answer on a sponge, after the case's history.
pub fn judge_on(case: &Case, mut sponge: Sponge) -> Verdict {
    sponge.make(&case.history);
    let made = rules::domain(&case.domain).and_then(|()| rules::config(&case.config));
    if let Err(answer) = made {
        return Verdict::untouched("rules", answer, sponge);
    }
    judge_crate(case, sponge, rules::claims(case))
}

/// The crate's own answer, none of the rules outside it asked.
pub fn judge_bare(case: &Case) -> Verdict {
    let mut sponge = Sponge::new(case.sponge);
    sponge.make(&case.history);
    judge_crate(case, sponge, Ok(()))
}

fn judge_crate(case: &Case, sponge: Sponge, claims: Result<(), String>) -> Verdict {
    type B<const P: u32> = Residue<P>;
    match (case.modulus, case.degree) {
        (257, 1) => over::<257, Single<B<257>>>(case, sponge, claims),
        (257, 2) => over::<257, Pair<B<257>>>(case, sponge, claims),
        (257, 4) => over::<257, Pair<Pair<B<257>>>>(case, sponge, claims),
        (257, 8) => over::<257, Pair<Pair<Pair<B<257>>>>>(case, sponge, claims),
        (65537, 1) => over::<65537, Single<B<65537>>>(case, sponge, claims),
        (65537, 2) => over::<65537, Pair<B<65537>>>(case, sponge, claims),
        (65537, 4) => over::<65537, Pair<Pair<B<65537>>>>(case, sponge, claims),
        (65537, 8) => over::<65537, Pair<Pair<Pair<B<65537>>>>>(case, sponge, claims),
        _ => panic!("no such tower"),
    }
}

fn over<const P: u32, EF>(case: &Case, sponge: Sponge, claims: Result<(), String>) -> Verdict
where
    EF: ExtensionField<Residue<P>> + TwoAdicField,
{
    match &case.domain {
        DomainKind::Subgroup => run::<P, EF, _>(case, &Subgroup, sponge, claims),
        DomainKind::Listed(list) => {
            let list = list.iter().map(|&v| Residue::new(v)).collect();
            run::<P, EF, _>(case, &Listed::<P>(list), sponge, claims)
        }
    }
}

/// Makes the crate's verifier and lets it verify.
fn run<const P: u32, EF, D>(
    case: &Case,
    domain: &D,
    sponge: Sponge,
    claims: Result<(), String>,
) -> Verdict
where
    EF: ExtensionField<Residue<P>>,
    D: WhirDomain<Residue<P>, EF>,
{
    let config = configuration::<EF, Residue<P>, Recorder<P>>(given(&case.config));
    let scheme = Scheme(case.scheme.clone());
    let order = match case.order {
        Order::Prefix => VariableOrder::Prefix,
        Order::Suffix => VariableOrder::Suffix,
    };
    let verifier = match caught(|| WhirVerifier::new(&config, domain, &scheme, order)) {
        Ok(verifier) => verifier,
        Err(panic) => return Verdict::untouched("crate", mismatch(&panic), sponge),
    };
    if let Err(answer) = claims {
        return Verdict::untouched("rules", answer, sponge);
    }
    verified(case, &verifier, sponge)
}

/// Lets the crate verify, and reads its answer.
fn verified<const P: u32, EF, D>(
    case: &Case,
    verifier: &WhirVerifier<'_, EF, Residue<P>, D, Scheme, Recorder<P>>,
    sponge: Sponge,
) -> Verdict
where
    EF: ExtensionField<Residue<P>>,
    D: WhirDomain<Residue<P>, EF>,
{
    let proof = proof::<P, EF>(case);
    let claims = case
        .claims
        .iter()
        .map(|claim| (lift_all::<P, EF>(&claim.point), lift(&claim.value)))
        .collect();
    let mut recorder = Recorder::<P>::new(sponge);
    let outcome = caught(|| {
        let layout = LayoutVerifier::new(case.config.num_variables as usize, claims);
        let number = case.num_opening_claims as usize;
        verifier.verify(
            &proof,
            &mut recorder,
            &case.first_commitment,
            number,
            &layout,
        )
    });
    let answer = match outcome {
        Ok(Ok(point)) => accepted::<P, EF>(point.as_slice()),
        Ok(Err(error)) => refused(&error, recorder.sumchecks, case),
        Err(panic) => format!("panic {panic}"),
    };
    Verdict {
        by: "crate",
        answer,
        sponge: recorder.sponge,
        calls: recorder.calls,
    }
}

/// The crate's record with the case's numbers.
fn given(c: &Config) -> Given {
    Given {
        num_variables: c.num_variables as usize,
        max_log_domain_size: c.capacity as usize,
        domain_id: c.domain_id.clone(),
        stratified_queries: c.stratified,
        params: ProtocolParameters {
            starting_log_inv_rate: c.starting_log_inv_rate as usize,
            round_log_inv_rates: c.round_log_inv_rates.iter().map(|&e| e as usize).collect(),
            folding_factor: rules::folding_factor(&c.strategy),
            soundness_type: match c.soundness {
                0 => SecurityAssumption::UniqueDecoding,
                1 => SecurityAssumption::JohnsonBound,
                _ => SecurityAssumption::CapacityBound,
            },
            security_level: c.security_level as usize,
            pow_bits: c.pow_budget as usize,
        },
        round_parameters: c
            .rounds
            .iter()
            .map(|r| RoundConfig {
                pow_bits: r.pow_bits as usize,
                folding_pow_bits: r.folding_pow_bits as usize,
                num_queries: r.num_queries as usize,
                ood_samples: r.ood_samples as usize,
                num_variables: r.num_variables as usize,
                folding_factor: r.folding_factor as usize,
                log_inv_rate: r.log_inv_rate as usize,
                domain_size: r.domain_size as usize,
                log_folded_domain_size: r.log_folded_domain_size as usize,
            })
            .collect(),
        folding_schedule: c.schedule.iter().map(|&k| k as usize).collect(),
        commitment_ood_samples: c.commitment_ood_samples as usize,
        starting_folding_pow_bits: c.starting_folding_pow_bits as usize,
        terminal: TerminalBudget {
            num_queries: c.terminal_queries as usize,
            pow_bits: c.terminal_pow_bits as usize,
        },
        final_sumcheck_rounds: c.final_sumcheck_rounds as usize,
        final_folding_pow_bits: c.final_folding_pow_bits as usize,
    }
}

/// The crate's shape of a configuration, and the byte strings of its separator. With `alone` the
/// extension field of degree 1 is the base field itself.
pub fn shape(
    modulus: u32,
    degree: usize,
    alone: bool,
    config: &Config,
    num_opening_claims: u64,
) -> (WhirShape, Vec<Vec<u8>>) {
    fn of<const P: u32, EF: ExtensionField<Residue<P>>>(
        config: &Config,
        claims: u64,
    ) -> (WhirShape, Vec<Vec<u8>>) {
        let config = configuration::<EF, Residue<P>, Recorder<P>>(given(config));
        let shape = WhirShape::new(&config, claims as usize);
        let pieces = shape.domain_separator::<Residue<P>, EF>().pieces();
        (shape, pieces)
    }
    type B<const P: u32> = Residue<P>;
    match (modulus, degree, alone) {
        (257, 1, true) => of::<257, B<257>>(config, num_opening_claims),
        (65537, 1, true) => of::<65537, B<65537>>(config, num_opening_claims),
        (257, 1, false) => of::<257, Single<B<257>>>(config, num_opening_claims),
        (257, 2, _) => of::<257, Pair<B<257>>>(config, num_opening_claims),
        (257, 4, _) => of::<257, Pair<Pair<B<257>>>>(config, num_opening_claims),
        (257, _, _) => of::<257, Pair<Pair<Pair<B<257>>>>>(config, num_opening_claims),
        (_, 1, false) => of::<65537, Single<B<65537>>>(config, num_opening_claims),
        (_, 2, _) => of::<65537, Pair<B<65537>>>(config, num_opening_claims),
        (_, 4, _) => of::<65537, Pair<Pair<B<65537>>>>(config, num_opening_claims),
        _ => of::<65537, Pair<Pair<Pair<B<65537>>>>>(config, num_opening_claims),
    }
}

fn lift<const P: u32, EF: ExtensionField<Residue<P>>>(element: &El) -> EF {
    let coefficients: Vec<Residue<P>> = element.0[..EF::DEGREE]
        .iter()
        .map(|&c| Residue::new(c))
        .collect();
    EF::from_coefficients(&coefficients)
}

fn lift_all<const P: u32, EF: ExtensionField<Residue<P>>>(elements: &[El]) -> Vec<EF> {
    elements.iter().map(lift).collect()
}

type CrateProof<const P: u32, EF> = WhirProof<Residue<P>, EF, Scheme>;
type Paths = Vec<Vec<crate::case::Digest>>;

/// The crate's proof with the case's parts.
fn proof<const P: u32, EF: ExtensionField<Residue<P>>>(case: &Case) -> CrateProof<P, EF> {
    let proof = &case.proof;
    let rounds = proof
        .rounds
        .iter()
        .enumerate()
        .map(|(i, round)| WhirRoundProof {
            commitment: round.commitment,
            ood_answers: lift_all(&round.ood),
            pow_witness: Residue::new(round.query_witness),
            openings: openings::<P, EF>(case, i, &round.opening),
            sumcheck: sumcheck(&round.sumcheck),
        })
        .collect();
    WhirProof {
        initial_ood_answers: lift_all(&proof.initial_ood),
        initial_sumcheck: sumcheck(&proof.initial),
        rounds,
        final_poly: proof
            .final_poly
            .as_ref()
            .map(|values| Poly::new(lift_all(values))),
        final_pow_witness: Residue::new(proof.final_query_witness),
        final_openings: openings::<P, EF>(case, proof.rounds.len(), &proof.final_opening),
        final_sumcheck: proof.final_sumcheck.as_ref().map(sumcheck),
    }
}

fn sumcheck<const P: u32, EF: ExtensionField<Residue<P>>>(
    sumcheck: &Sumcheck,
) -> SumcheckData<Residue<P>, EF> {
    SumcheckData {
        messages: sumcheck
            .messages
            .iter()
            .map(|[h0, h2]| [lift(h0), lift(h2)])
            .collect(),
        witnesses: sumcheck
            .witnesses
            .iter()
            .map(|&w| Residue::new(w))
            .collect(),
    }
}

/// The most rows that the crate is handed. A phase opens 1,024 at most, so that a greater count
/// is refused for its number alone, whatever the rows.
const MOST_ROWS: u64 = 4096;

/// As many rows as counted, of the phase's width, the last taking whatever is left; paths alike.
fn openings<const P: u32, EF: ExtensionField<Residue<P>>>(
    case: &Case,
    phase: usize,
    opening: &Opening,
) -> QueryOpenings<Residue<P>, EF, Paths> {
    let k = case
        .config
        .schedule
        .get(phase)
        .copied()
        .unwrap_or(0)
        .min(16);
    let count = opening.count.min(MOST_ROWS) as usize;
    let levels = match case.scheme {
        crate::case::SchemeKind::Merkle => levels(&case.config, phase),
        crate::case::SchemeKind::Kept(_) => 0,
    };
    let proof = split(&opening.paths, count, levels);
    match opening.kind {
        RowKind::Base => QueryOpenings::Base(SharedProofOpening {
            rows: split(&opening.elements, count, 1 << k)
                .iter()
                .map(|row| row.iter().map(|v| Residue::new(v.0[0])).collect())
                .collect(),
            proof,
        }),
        RowKind::Extension => QueryOpenings::Extension(SharedProofOpening {
            rows: split(&opening.elements, count, 1 << k)
                .iter()
                .map(|row| lift_all(row))
                .collect(),
            proof,
        }),
    }
}

/// The length of a path in a phase of a consistent configuration.
fn levels(c: &Config, phase: usize) -> usize {
    let taken = c.schedule.iter().take(phase + 1);
    let folded = taken.fold(0u64, |sum, &k| sum.saturating_add(k));
    let rate = if phase == 0 {
        Some(c.starting_log_inv_rate)
    } else {
        c.rounds.get(phase - 1).map(|r| r.log_inv_rate)
    };
    rate.map_or(0, |e| {
        c.num_variables
            .saturating_add(e)
            .saturating_sub(folded)
            .min(64)
    }) as usize
}

fn split<T: Clone>(items: &[T], count: usize, width: usize) -> Vec<Vec<T>> {
    let mut rest = items;
    (0..count)
        .map(|j| {
            let taken = if j + 1 < count {
                width.min(rest.len())
            } else {
                rest.len()
            };
            let (part, left) = rest.split_at(taken);
            rest = left;
            part.to_vec()
        })
        .collect()
}

fn accepted<const P: u32, EF: ExtensionField<Residue<P>>>(point: &[EF]) -> String {
    point
        .iter()
        .fold(format!("accepted {}", point.len()), |text, draw| {
            format!("{text} {draw}")
        })
}

/// The refusal of making a verifier, read off the crate's assertion.
fn mismatch(panic: &str) -> String {
    let which = [
        ("different capacities", "capacity"),
        ("different protocol identities", "id"),
        ("disagree on query stratification", "strata"),
        ("a soundness regime the domain rejects", "soundness"),
    ];
    which
        .iter()
        .find(|(words, _)| panic.contains(words))
        .map_or_else(
            || format!("panic {panic}"),
            |(_, part)| format!("refused 4 DomainMismatch {part}"),
        )
}

/// The refusal's words. `begun` sumchecks were begun: a refused one is the last of them, and
/// the phase of an opening is the one that the last of them ended.
fn refused(error: &VerifierError, begun: usize, case: &Case) -> String {
    let phase = begun.saturating_sub(1);
    let text = match error {
        VerifierError::RoundCountMismatch { expected, actual } => {
            format!("10 RoundCountMismatch {expected} {actual}")
        }
        VerifierError::NonCanonicalPowWitness { round } => {
            format!("11 NonCanonicalPowWitness {round}")
        }
        VerifierError::Sumcheck(error) => format!("12 Sumcheck {phase} {}", sumcheck_error(error)),
        VerifierError::MissingRoundCommitment { round } => {
            format!("13 MissingRoundCommitment {round}")
        }
        VerifierError::RoundOodAnswerCountMismatch {
            round,
            expected,
            actual,
        } => format!("14 RoundOodAnswerCountMismatch {round} {expected} {actual}"),
        VerifierError::InvalidPowWitness { round, bits } => {
            format!("15 InvalidPowWitness {round} {bits}")
        }
        VerifierError::MerkleProofInvalid { position, reason } => {
            format!(
                "16 MerkleProofInvalid {phase} {position} {}",
                opening_error(reason, phase)
            )
        }
        VerifierError::StirQueryCountMismatch {
            round_index,
            expected,
            actual,
        } => {
            let counted = row_count(case, *round_index).unwrap_or(*actual as u64);
            format!("17 StirQueryCountMismatch {round_index} {expected} {counted}")
        }
        VerifierError::MissingFinalPoly => "18 MissingFinalPoly".into(),
        VerifierError::FinalPolyLengthMismatch { expected, actual } => {
            format!("19 FinalPolyLengthMismatch {expected} {actual}")
        }
        VerifierError::StirChallengeFailed { challenge_id, .. } => {
            format!("20 StirChallengeFailed {challenge_id}")
        }
        VerifierError::SumcheckFailed {
            round,
            expected,
            actual,
        } => format!("21 SumcheckFailed {round} {expected} {actual}"),
        other => return format!("panic an error that verify never gives: {other:?}"),
    };
    format!("refused {text}")
}

/// The count as the case has it, which may be more than the crate was handed.
fn row_count(case: &Case, phase: usize) -> Option<u64> {
    if phase == case.proof.rounds.len() {
        return Some(case.proof.final_opening.count);
    }
    case.proof
        .rounds
        .get(phase)
        .map(|round| round.opening.count)
}

fn sumcheck_error(error: &SumcheckError) -> String {
    match error {
        SumcheckError::Count { expected, actual } => format!("count {expected} {actual}"),
        SumcheckError::Witnesses { expected, actual } => format!("witnesses {expected} {actual}"),
        SumcheckError::Grind { round, bits } => format!("grind {round} {bits}"),
    }
}

/// The kind of a refused opening, read off the crate's words; the phase they name must agree.
fn opening_error(reason: &str, phase: usize) -> &'static str {
    match reason {
        "Base field Merkle multiproof verification failed" => "base",
        "Extension field Merkle multiproof verification failed" => "extension",
        other => {
            assert_eq!(
                other,
                format!("Query openings field does not match round {phase}")
            );
            "kind"
        }
    }
}

thread_local! {
    static PANIC: RefCell<Option<String>> = const { RefCell::new(None) };
    static CATCHING: RefCell<bool> = const { RefCell::new(false) };
}

/// Runs the crate; a panic is its message, on one line.
fn caught<T>(body: impl FnOnce() -> T) -> Result<T, String> {
    CATCHING.with(|catching| *catching.borrow_mut() = true);
    let outcome = catch_unwind(AssertUnwindSafe(body));
    CATCHING.with(|catching| *catching.borrow_mut() = false);
    outcome.map_err(|_| {
        PANIC
            .with(|panic| panic.borrow_mut().take())
            .unwrap_or_else(|| "without words".into())
    })
}

/// Keeps the words of a caught panic instead of printing them. To be called once, at the start.
pub fn keep_panics() {
    static ONCE: std::sync::Once = std::sync::Once::new();
    ONCE.call_once(|| {
        let usual = std::panic::take_hook();
        std::panic::set_hook(Box::new(move |info| {
            if CATCHING.with(|catching| *catching.borrow()) {
                let words = info
                    .to_string()
                    .split_whitespace()
                    .collect::<Vec<_>>()
                    .join(" ");
                PANIC.with(|panic| *panic.borrow_mut() = Some(words));
            } else {
                usual(info);
            }
        }));
    });
}
