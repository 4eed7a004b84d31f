//! Refusals 1, 2 and 3, which the crate lacks or panics at: a configuration is checked when it
//! is made, a domain's list when it is made, the claims before a run.

use p3_whir::parameters::{FoldingFactor, FoldingFactorError};

use crate::case::{Case, Config, DomainKind, Strategy};

/// A refusal: its number, name and values.
pub type Refusal = String;

fn limit() -> Refusal {
    "refused 1 Limit".into()
}

/// A listed domain holds 2^c distinct base elements, c at most 12.
pub fn domain(kind: &DomainKind) -> Result<(), Refusal> {
    let DomainKind::Listed(list) = kind else {
        return Ok(());
    };
    let distinct: std::collections::HashSet<_> = list.iter().collect();
    let fits = list.len().is_power_of_two() && list.len() <= 1 << 12;
    if fits && distinct.len() == list.len() {
        Ok(())
    } else {
        Err(limit())
    }
}

/// The checks of a configuration, in order.
pub fn config(config: &Config) -> Result<(), Refusal> {
    if !within_limits(config) {
        return Err(limit());
    }
    let schedule = schedule(&config.strategy, config.num_variables)?;
    if !consistent(config, &schedule) {
        return Err("refused 3 Inconsistent".into());
    }
    let rows = rows(config);
    if schedule.iter().any(|&k| k > 10) || rows.iter().any(|&rows| rows > 1024) {
        return Err(limit());
    }
    Ok(())
}

/// At most 1,024 claims, each at a point of n coordinates.
pub fn claims(case: &Case) -> Result<(), Refusal> {
    let n = case.config.num_variables as usize;
    if case.claims.len() > 1024 || case.claims.iter().any(|claim| claim.point.len() != n) {
        return Err(limit());
    }
    Ok(())
}

/// The limits on the numbers given.
fn within_limits(c: &Config) -> bool {
    let listed: &[u64] = match &c.strategy {
        Strategy::Constant(_) | Strategy::Second(..) => &[],
        Strategy::PerRound(list) => list,
    };
    let nominal = match c.strategy {
        Strategy::Constant(f) => f,
        Strategy::Second(f, g) => f.max(g),
        Strategy::PerRound(_) => 0,
    };
    let mut difficulties = vec![
        c.starting_folding_pow_bits,
        c.terminal_pow_bits,
        c.final_folding_pow_bits,
    ];
    let mut others = vec![
        c.starting_log_inv_rate,
        nominal,
        c.security_level,
        c.pow_budget,
        c.commitment_ood_samples,
        c.terminal_queries,
        c.final_sumcheck_rounds,
        c.rounds.len() as u64,
        c.schedule.len() as u64,
        c.round_log_inv_rates.len() as u64,
    ];
    others.extend(&c.round_log_inv_rates);
    others.extend(&c.schedule);
    others.extend(listed);
    for r in &c.rounds {
        difficulties.extend([r.pow_bits, r.folding_pow_bits]);
        others.extend([
            r.num_queries,
            r.num_variables,
            r.folding_factor,
            r.log_inv_rate,
            r.log_folded_domain_size,
        ]);
    }
    (1..=16).contains(&c.num_variables)
        && c.capacity <= 16
        && listed.len() <= 16
        && c.rounds.iter().all(|r| r.ood_samples <= 16)
        && difficulties.iter().all(|&bits| bits <= 30)
        && c.domain_id.len() <= 32
        && c.soundness <= 2
        && c.rounds.iter().all(|r| r.domain_size <= 65_536)
        && others.iter().all(|&number| number <= 65_535)
}

/// The crate's strategy with these numbers.
pub fn folding_factor(strategy: &Strategy) -> FoldingFactor {
    match strategy {
        Strategy::Constant(f) => FoldingFactor::Constant(*f as usize),
        Strategy::Second(f, g) => FoldingFactor::ConstantFromSecondRound(*f as usize, *g as usize),
        Strategy::PerRound(list) => {
            FoldingFactor::PerRound(list.iter().map(|&f| f as usize).collect())
        }
    }
}

/// An error's words.
pub fn folding_error(error: &FoldingFactorError) -> String {
    match error {
        FoldingFactorError::TooLarge(factor, most) => format!("TooLarge {factor} {most}"),
        FoldingFactorError::ZeroFactor => "ZeroFactor".into(),
        FoldingFactorError::InsufficientFolding {
            num_variables,
            remaining,
            threshold,
        } => format!("InsufficientFolding {num_variables} {remaining} {threshold}"),
        FoldingFactorError::EmptySchedule => "EmptySchedule".into(),
    }
}

/// The schedule that the crate computes, or its error.
fn schedule(strategy: &Strategy, n: u64) -> Result<Vec<u64>, Refusal> {
    folding_factor(strategy)
        .compute_folding_schedule(n as usize)
        .map(|schedule| schedule.into_iter().map(|k| k as u64).collect())
        .map_err(|error| format!("refused 2 Folding {}", folding_error(&error)))
}

/// Whether every stored number is the one that n, the strategy and the rates settle.
fn consistent(c: &Config, schedule: &[u64]) -> bool {
    let m = schedule.len() - 1;
    if c.schedule != schedule || c.rounds.len() != m {
        return false;
    }
    let mut n = c.num_variables;
    let mut e = c.starting_log_inv_rate;
    let mut derived = true;
    for (r, &k) in c.rounds.iter().zip(schedule) {
        let fits = n + e <= c.capacity
            && r.num_variables == n - k
            && r.folding_factor == k
            && r.domain_size == 1 << (n + e)
            && r.log_folded_domain_size == n + e - k
            && r.log_inv_rate <= e + k;
        if !fits {
            return false;
        }
        derived &= r.log_inv_rate == e + k - 1;
        n -= k;
        e = r.log_inv_rate;
    }
    let rates: Vec<u64> = c.rounds.iter().map(|r| r.log_inv_rate).collect();
    n + e <= c.capacity
        && c.final_sumcheck_rounds == n - schedule[m]
        && (c.round_log_inv_rates == rates || c.round_log_inv_rates.is_empty() && derived)
}

/// How many rows each phase of a consistent configuration opens: the draws, or every position
/// where nothing is drawn.
pub fn rows(c: &Config) -> Vec<u64> {
    let mut n = c.num_variables;
    let mut e = c.starting_log_inv_rate;
    let mut all = Vec::new();
    for (i, &k) in c.schedule.iter().enumerate() {
        let positions = 1 << (n + e - k);
        let round = c.rounds.get(i);
        let queries = round.map_or(c.terminal_queries, |r| r.num_queries);
        all.push(if queries == 0 || queries >= positions {
            positions
        } else {
            queries
        });
        n -= k;
        e = round.map_or(e, |r| r.log_inv_rate);
    }
    all
}
