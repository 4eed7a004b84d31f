//! The numbers of a run, worked out anew from n, the strategy and the rates.

use crate::case::{Config, Strategy};

/// How many variables may be left to be sent in the clear.
const THRESHOLD: u64 = 6;

/// The schedule, or nothing where the strategy does not fit.
pub fn schedule(strategy: &Strategy, n: u64) -> Option<Vec<u64>> {
    let nominal = |i: usize| match strategy {
        Strategy::Constant(f) => Some(*f),
        Strategy::Second(f, g) => Some(if i == 0 { *f } else { *g }),
        Strategy::PerRound(list) => list.get(i).copied(),
    };
    let wrong = match strategy {
        Strategy::Constant(f) => *f == 0 || *f > n,
        Strategy::Second(f, g) => *f == 0 || *g == 0 || *f > n,
        Strategy::PerRound(list) => list.iter().any(|&f| f == 0 || f > n),
    };
    if wrong {
        return None;
    }
    let mut left = n;
    let mut schedule = Vec::new();
    loop {
        let k = match strategy {
            Strategy::PerRound(_) => nominal(schedule.len()).filter(|&k| k <= left)?,
            _ => nominal(schedule.len())?.min(left),
        };
        schedule.push(k);
        left -= k;
        if left <= THRESHOLD {
            return Some(schedule);
        }
    }
}

/// Phase i opens a commitment to a table of `variables`, with rows of 2^fold elements at
/// 2^positions positions.
#[derive(Clone, Copy, Debug)]
pub struct Phase {
    pub variables: u64,
    pub rate: u64,
    pub fold: u64,
    pub positions: u64,
    pub queries: u64,
    pub query_bits: u64,
}

/// The phases of a consistent configuration.
pub fn phases(c: &Config) -> Vec<Phase> {
    let mut variables = c.num_variables;
    let mut rate = c.starting_log_inv_rate;
    let mut all = Vec::new();
    for (i, &fold) in c.schedule.iter().enumerate() {
        let round = c.rounds.get(i);
        all.push(Phase {
            variables,
            rate,
            fold,
            positions: variables + rate - fold,
            queries: round.map_or(c.terminal_queries, |r| r.num_queries),
            query_bits: round.map_or(c.terminal_pow_bits, |r| r.pow_bits),
        });
        variables -= fold;
        rate = round.map_or(rate, |r| r.log_inv_rate);
    }
    all
}

impl Phase {
    /// How many positions are drawn.
    pub fn draws(&self) -> u64 {
        if self.queries < 1 << self.positions {
            self.queries
        } else {
            0
        }
    }

    /// How many rows are opened.
    pub fn rows(&self) -> u64 {
        if self.draws() == 0 {
            1 << self.positions
        } else {
            self.draws()
        }
    }
}

/// Sets every number that n, the strategy, the starting rate and the rounds' rates settle. The
/// strategy must fit and the rounds be as many as it makes.
pub fn settle(c: &mut Config) {
    c.schedule = schedule(&c.strategy, c.num_variables).expect("a strategy that fits");
    assert_eq!(c.rounds.len() + 1, c.schedule.len());
    let mut n = c.num_variables;
    let mut e = c.starting_log_inv_rate;
    for (round, &k) in c.rounds.iter_mut().zip(&c.schedule) {
        round.num_variables = n - k;
        round.folding_factor = k;
        round.domain_size = 1 << (n + e);
        round.log_folded_domain_size = n + e - k;
        n -= k;
        e = round.log_inv_rate;
    }
    c.final_sumcheck_rounds = n - c.schedule[c.rounds.len()];
}

/// The byte strings of the separator, in order.
pub fn separator(c: &Config, degree: usize, num_opening_claims: u64) -> Vec<Vec<u8>> {
    let phases = phases(c);
    let last = phases[phases.len() - 1];
    let mut pieces = vec![vec![3], b"p3-whir".to_vec()];
    let extension = (3, degree as u64);
    bracket(&mut pieces, "initial_fold");
    for (round, phase) in c.rounds.iter().zip(&phases) {
        pieces.push(step(2, 0, (1, 0), 0, "commitment"));
        for _ in 0..round.ood_samples {
            pieces.push(step(2, 1, extension, 0, "ood_point"));
            pieces.push(step(2, 0, extension, 0, "ood_answer"));
        }
        queries(
            &mut pieces,
            phase,
            c.stratified,
            "query_pow",
            "query_indices",
        );
        pieces.push(step(2, 1, extension, 0, "round_batching"));
        bracket(&mut pieces, "round_fold");
    }
    pieces.push(step(
        2,
        0,
        extension,
        1 << c.final_sumcheck_rounds,
        "final_poly",
    ));
    queries(
        &mut pieces,
        &last,
        c.stratified,
        "final_query_pow",
        "final_query_indices",
    );
    if c.final_sumcheck_rounds > 0 {
        bracket(&mut pieces, "final_fold");
    }
    pieces.extend(
        instances(c, num_opening_claims)
            .into_iter()
            .map(|bytes| [&[1], (bytes.len() as u64).to_be_bytes().as_slice(), &bytes].concat()),
    );
    pieces
}

fn instances(c: &Config, num_opening_claims: u64) -> Vec<Vec<u8>> {
    let mut numbers = vec![
        c.num_variables,
        c.commitment_ood_samples,
        num_opening_claims,
        1 << c.schedule[0],
        c.security_level,
        c.pow_budget,
        c.starting_log_inv_rate,
        c.soundness,
    ];
    let of_domain = numbers.len();
    match &c.strategy {
        Strategy::Constant(f) => numbers.extend([0, *f]),
        Strategy::Second(f, g) => numbers.extend([1, *f, *g]),
        Strategy::PerRound(list) => {
            numbers.extend([2, list.len() as u64]);
            numbers.extend(list);
        }
    }
    numbers.extend([c.schedule[0], c.starting_folding_pow_bits]);
    numbers.extend([c.final_sumcheck_rounds, c.final_folding_pow_bits]);
    numbers.push(c.rounds.len() as u64);
    for (round, next) in c.rounds.iter().zip(&c.schedule[1..]) {
        numbers.extend([round.log_inv_rate, *next, round.folding_pow_bits]);
    }
    let mut all: Vec<Vec<u8>> = numbers.iter().map(|n| n.to_be_bytes().to_vec()).collect();
    if !c.domain_id.is_empty() {
        all.insert(of_domain, c.domain_id.clone());
        all.insert(of_domain + 1, vec![u8::from(c.stratified)]);
    }
    all
}

fn step(hierarchy: u8, kind: u8, carried: (u8, u64), length: u64, label: &str) -> Vec<u8> {
    let mut bytes = vec![0, hierarchy, kind, carried.0];
    bytes.extend(carried.1.to_be_bytes());
    bytes.extend(length.to_be_bytes());
    bytes.extend(label.bytes());
    bytes
}

fn bracket(pieces: &mut Vec<Vec<u8>>, label: &str) {
    pieces.push(step(0, 3, (0, 0), 0, label));
    pieces.push(step(1, 3, (0, 0), 0, label));
}

fn queries(pieces: &mut Vec<Vec<u8>>, phase: &Phase, strata: bool, pow: &str, indices: &str) {
    if phase.query_bits > 0 {
        pieces.push(step(2, 2, (2, 0), phase.query_bits, pow));
    }
    for (bits, count) in draw_groups(phase, strata) {
        pieces.push(step(2, 1, (4, bits), count, indices));
    }
}

/// What a phase draws: groups of so many numbers of so many bits.
pub fn draw_groups(phase: &Phase, strata: bool) -> Vec<(u64, u64)> {
    let draws = phase.draws();
    if draws == 0 {
        return Vec::new();
    }
    if !strata {
        return vec![(phase.positions, draws)];
    }
    (0..phase.positions)
        .rev()
        .filter(|depth| draws >> depth & 1 == 1)
        .map(|depth| (phase.positions - depth, 1 << depth))
        .collect()
}
