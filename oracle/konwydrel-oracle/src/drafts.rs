//! Random consistent configurations, tables and points to write about.

use crate::case::{
    Call, Case, Commitment, Config, DomainKind, El, Opening, Order, Proof, RoundNumbers, RowKind,
    SchemeKind, SpongeKind, Strategy, Sumcheck,
};
use crate::rng::Rng;
use crate::writer::Draft;
use crate::writer::numbers::{phases, schedule, settle};

/// How large a draft may be.
#[derive(Clone, Copy, Debug)]
pub struct Size {
    pub variables: u64,
    /// Multiplications to make all rows.
    pub cost: u64,
    /// Rows opened in all, elements of the widest row times that.
    pub opened: u64,
    /// Numbers kept in all, on shelves or in a list.
    pub kept: u64,
    pub claims: u64,
    /// Rounds that it must have at least; below 257 there is never more than one.
    pub rounds: usize,
}

pub const SMALL: Size = Size {
    variables: 10,
    cost: 1 << 19,
    opened: 1 << 8,
    kept: 1 << 10,
    claims: 3,
    rounds: 0,
};

pub const USUAL: Size = Size {
    variables: 10,
    cost: 1 << 19,
    opened: 1 << 12,
    kept: 1 << 20,
    claims: 4,
    rounds: 0,
};

pub const LARGE: Size = Size {
    variables: 12,
    cost: 1 << 27,
    opened: 1 << 16,
    kept: 1 << 20,
    claims: 6,
    rounds: 0,
};

/// Up to the most variables and folds that there may be.
pub const HUGE: Size = Size {
    variables: 16,
    ..LARGE
};

/// A random draft within a size.
pub fn draft(rng: &mut Rng, size: &Size) -> Draft {
    let modulus = *rng.pick(&[257, 65537]);
    let degree = *rng.pick(&[1, 2, 4, 8]);
    draft_over(rng, size, modulus, degree)
}

/// A random draft over a tower.
pub fn draft_over(rng: &mut Rng, size: &Size, modulus: u32, degree: usize) -> Draft {
    let (domain, config) = setting(rng, *size, modulus, degree);
    let n = config.num_variables as usize;
    let most = if rng.one_in(32) {
        10 * size.claims
    } else {
        size.claims
    };
    let points: Vec<Vec<El>> = (0..rng.from_to(0, most))
        .map(|_| point(rng, modulus, degree, n))
        .collect();
    let any = rng.word();
    let kept = SchemeKind::Kept(Vec::new());
    let case = Case {
        name: "honest".into(),
        modulus,
        degree,
        domain,
        scheme: rng.pick(&[SchemeKind::Merkle, kept]).clone(),
        sponge: *rng.pick(&[SpongeKind::Archive, SpongeKind::Trial]),
        history: history(rng),
        order: *rng.pick(&[Order::Prefix, Order::Suffix]),
        config,
        num_opening_claims: if rng.one_in(8) {
            any
        } else {
            points.len() as u64
        },
        claims: Vec::new(),
        first_commitment: Commitment::Shelf(0),
        proof: empty_proof(),
        stated: None,
    };
    Draft {
        case,
        table: table(rng, modulus, 1 << n),
        points,
    }
}

/// A domain and a configuration over it, with the rounds asked for. A size that leaves no room
/// grows.
fn setting(rng: &mut Rng, mut size: Size, modulus: u32, degree: usize) -> (DomainKind, Config) {
    let rounds = if modulus == 257 {
        size.rounds.min(1)
    } else {
        size.rounds
    };
    loop {
        let domain = domain(rng, modulus, &size);
        let capacity = capacity(modulus, &domain);
        let listed = matches!(domain, DomainKind::Listed(_));
        match config(rng, &size, capacity, listed) {
            Some(config) if config.rounds.len() >= rounds && fits(&config, &size, degree) => {
                return (domain, config);
            }
            _ => {}
        }
        if rng.one_in(1000) {
            size.opened *= 2;
            size.kept *= 2;
            size.cost *= 2;
        }
    }
}

pub fn history(rng: &mut Rng) -> Vec<Call> {
    let count = rng.below(4);
    (0..count)
        .map(|_| {
            if rng.one_in(3) {
                return Call::Draw;
            }
            let length = *rng.pick(&[0, 1, 3, 31, 32, 40, 64, 100]);
            Call::Observe(rng.bytes(length))
        })
        .collect()
}

fn empty_proof() -> Proof {
    Proof {
        initial_ood: Vec::new(),
        initial: Sumcheck::default(),
        rounds: Vec::new(),
        final_poly: None,
        final_query_witness: 0,
        final_opening: Opening {
            kind: RowKind::Base,
            count: 0,
            elements: Vec::new(),
            paths: Vec::new(),
        },
        final_sumcheck: None,
    }
}

fn domain(rng: &mut Rng, modulus: u32, size: &Size) -> DomainKind {
    if rng.one_in(2) {
        return DomainKind::Subgroup;
    }
    let most = if modulus == 257 { 8 } else { 12 }.min(size.variables + 2);
    let log = rng.from_to(most.saturating_sub(6).max(1), most);
    let mut all: Vec<u32> = (0..modulus).collect();
    rng.shuffle(&mut all);
    all.truncate(1 << log);
    DomainKind::Listed(all)
}

fn capacity(modulus: u32, domain: &DomainKind) -> u64 {
    match domain {
        DomainKind::Listed(list) => u64::from(list.len().trailing_zeros()),
        DomainKind::Subgroup if modulus == 257 => 8,
        DomainKind::Subgroup => 16,
    }
}

/// A strategy that may or may not fit n variables.
pub fn strategy(rng: &mut Rng, n: u64) -> Strategy {
    let n = n.min(64);
    let most = n.min(10);
    let low = rng.from_to(1, most.min(3));
    match rng.below(6) {
        0 => Strategy::Constant(low),
        1 => Strategy::Constant(rng.from_to(1, most)),
        2 => Strategy::Second(low, rng.from_to(1, 10)),
        3 => Strategy::Second(rng.from_to(1, most), rng.from_to(1, 10)),
        _ => {
            let mut left = n;
            let mut list = Vec::new();
            while left > 0 && (list.is_empty() || left > 6) {
                let k = if rng.one_in(2) {
                    1
                } else {
                    rng.from_to(1, left.min(10))
                };
                list.push(k);
                left -= k;
            }
            // Factors that are never reached are ignored.
            let all = rng.one_in(24);
            while (all || rng.one_in(6)) && list.len() < 16 {
                list.push(rng.from_to(1, n));
            }
            Strategy::PerRound(list)
        }
    }
}

fn difficulty(rng: &mut Rng) -> u64 {
    let most = if rng.one_in(16) { 8 } else { 4 };
    if rng.one_in(2) {
        0
    } else {
        rng.from_to(1, most)
    }
}

/// A number of queries: none, few, nearly all, all, or more than there are.
fn queries(rng: &mut Rng, positions: u64) -> u64 {
    let all = 1 << positions;
    match rng.below(8) {
        0 => 0,
        1 => all - 1,
        2 => all,
        3 => all + rng.below(70),
        4 => rng.from_to(1, all),
        _ => rng.from_to(1, 5),
    }
}

fn rate(rng: &mut Rng, most: u64) -> u64 {
    let small = if rng.one_in(4) { most } else { most.min(2) };
    rng.from_to(0, small)
}

/// A consistent configuration over a domain; nothing, where the strategy does not fit.
fn config(rng: &mut Rng, size: &Size, capacity: u64, listed: bool) -> Option<Config> {
    let most = capacity.min(size.variables);
    let least = if size.rounds > 0 { most.min(8) } else { 1 };
    let near = most - rng.below(most.min(3));
    let n = if rng.one_in(2) {
        rng.from_to(least, most)
    } else {
        near
    };
    let strategy = strategy(rng, n);
    let schedule = schedule(&strategy, n)?;
    let many = schedule.len() > 5 && size.variables <= LARGE.variables;
    if many || schedule.iter().any(|&k| k > 10) {
        return None;
    }
    let starting_log_inv_rate = rate(rng, capacity - n);
    let rounds = rounds(rng, n, starting_log_inv_rate, &schedule, capacity);
    let mut config = Config {
        num_variables: n,
        capacity,
        domain_id: if listed { b"list".to_vec() } else { Vec::new() },
        stratified: listed,
        starting_log_inv_rate,
        round_log_inv_rates: rounds.iter().map(|r| r.log_inv_rate).collect(),
        strategy,
        soundness: rng.below(if listed { 2 } else { 3 }),
        security_level: rng.below(160),
        pow_budget: rng.below(31),
        schedule: Vec::new(),
        rounds,
        commitment_ood_samples: rng.below(4),
        starting_folding_pow_bits: difficulty(rng),
        terminal_queries: 0,
        terminal_pow_bits: difficulty(rng),
        final_sumcheck_rounds: 0,
        final_folding_pow_bits: difficulty(rng),
    };
    settle(&mut config);
    if derives(&config) && rng.one_in(2) {
        config.round_log_inv_rates.clear();
    }
    ask_queries(rng, &mut config);
    Some(config)
}

/// The rounds' own numbers, at rates that the domain has room for; now and then at the rates
/// that the crate derives by itself.
fn rounds(rng: &mut Rng, n: u64, e: u64, schedule: &[u64], capacity: u64) -> Vec<RoundNumbers> {
    let derived = rng.one_in(4);
    let (mut left, mut e) = (n, e);
    let mut rounds = Vec::new();
    for &k in &schedule[..schedule.len() - 1] {
        left -= k;
        let most = (e + k).min(capacity - left);
        let usual = e + k - 1;
        e = if derived && usual <= most {
            usual
        } else {
            rate(rng, most)
        };
        let samples = if rng.one_in(16) { 17 } else { 4 };
        rounds.push(RoundNumbers {
            pow_bits: difficulty(rng),
            folding_pow_bits: difficulty(rng),
            ood_samples: rng.below(samples),
            log_inv_rate: e,
            ..RoundNumbers::default()
        });
    }
    rounds
}

/// Whether every rate is the one that the crate derives by itself.
fn derives(c: &Config) -> bool {
    let before = std::iter::once(c.starting_log_inv_rate)
        .chain(c.rounds.iter().map(|round| round.log_inv_rate));
    before
        .zip(&c.rounds)
        .all(|(e, round)| round.log_inv_rate == e + round.folding_factor - 1)
}

fn ask_queries(rng: &mut Rng, config: &mut Config) {
    let phases = phases(config);
    for (round, phase) in config.rounds.iter_mut().zip(&phases) {
        round.num_queries = queries(rng, phase.positions);
    }
    config.terminal_queries = queries(rng, phases[phases.len() - 1].positions);
}

fn fits(config: &Config, size: &Size, degree: usize) -> bool {
    let mut cost = 0;
    let mut opened = 0;
    let mut kept = 0;
    for (i, phase) in phases(config).iter().enumerate() {
        let width = if i == 0 { 1 } else { degree as u64 };
        cost += width << (phase.positions + phase.variables);
        opened += (phase.rows() * width) << phase.fold;
        kept += width << (phase.positions + phase.fold);
        if phase.rows() > 1024 {
            return false;
        }
    }
    cost <= size.cost && opened <= size.opened && kept <= size.kept
}

fn element(rng: &mut Rng, modulus: u32, degree: usize) -> El {
    let mut element = El::default();
    for coefficient in &mut element.0[..degree] {
        *coefficient = rng.below(u64::from(modulus)) as u32;
    }
    element
}

/// A point: anywhere, a corner, or with the modulus's edge in it.
pub fn point(rng: &mut Rng, modulus: u32, degree: usize, n: usize) -> Vec<El> {
    let kind = rng.below(4);
    (0..n)
        .map(|_| {
            let mut coordinate = El::default();
            match kind {
                0 => coordinate.0[0] = rng.below(2) as u32,
                1 => coordinate.0[..degree].fill(modulus - 1),
                _ => coordinate = element(rng, modulus, degree),
            }
            coordinate
        })
        .collect()
}

/// A table: any values, all one value, or one value among zeros.
fn table(rng: &mut Rng, modulus: u32, length: usize) -> Vec<u32> {
    let any = rng.below(u64::from(modulus)) as u32;
    match rng.below(8) {
        0 => vec![any; length],
        1 => {
            let mut table = vec![0; length];
            table[rng.place(length)] = any;
            table
        }
        _ => (0..length)
            .map(|_| rng.below(u64::from(modulus)) as u32)
            .collect(),
    }
}
