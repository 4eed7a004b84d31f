//! Inputs that show where the crate and the rules part, or the crate and its own documentation.

use crate::case::{Case, Config, DomainKind, SchemeKind, Strategy};
use crate::damage::KINDS;
use crate::drafts::{SMALL, Size, draft_over};
use crate::judge::{judge, judge_bare};
use crate::making::{cheating, honest};
use crate::rng::Rng;
use crate::rules;
use crate::sponge::Sponge;
use crate::writer::numbers::{phases, settle};
use crate::writer::{CHEATS, Draft};

/// An input with the answer by the rules and the crate's own.
pub struct Shown {
    pub name: &'static str,
    pub case: Case,
    pub by_rules: String,
    pub by_crate: String,
}

const TINY: Size = Size {
    variables: 4,
    opened: 1 << 6,
    kept: 1 << 7,
    claims: 2,
    ..SMALL
};

const ROUNDS: Size = Size {
    variables: 9,
    opened: 3 << 8,
    kept: 1 << 11,
    claims: 1,
    rounds: 1,
    ..SMALL
};

/// The first words of an answer, to be found in it.
type Words = &'static str;

/// How an input is made: a size, a change of the draft, a damage, what the rules must answer
/// and what the crate.
struct Recipe {
    name: &'static str,
    size: Size,
    prepare: fn(&mut Draft) -> bool,
    damage: Option<&'static str>,
    by_rules: Words,
    by_crate: Words,
}

const fn recipe(name: &'static str, by_rules: Words, by_crate: Words) -> Recipe {
    Recipe {
        name,
        size: TINY,
        prepare: |_| true,
        damage: None,
        by_rules,
        by_crate,
    }
}

/// Every input, made from a seed.
pub fn shown(seed: u64) -> Vec<Shown> {
    let mut rng = Rng::new(seed);
    let mut all: Vec<Shown> = recipes()
        .iter()
        .map(|recipe| made(recipe, &mut rng))
        .collect();
    all.push(accident(&mut rng));
    all
}

fn recipes() -> Vec<Recipe> {
    let mut all = documented();
    all.extend(unbound());
    all.extend(refused_by_rules());
    all
}

/// The crate against its own documentation.
fn documented() -> Vec<Recipe> {
    vec![
        Recipe {
            prepare: no_queries,
            ..recipe("zero-queries-open-all", "accepted", "accepted")
        },
        Recipe {
            prepare: no_queries,
            damage: Some("rows_count_less"),
            ..recipe("zero-queries-row-missing", "refused 17", "refused 17")
        },
        Recipe {
            prepare: |draft| {
                draft.case.config.starting_log_inv_rate = 0;
                resettled(&mut draft.case.config)
            },
            ..recipe("rate-one", "accepted", "accepted")
        },
        Recipe {
            prepare: |draft| {
                let c = &mut draft.case.config;
                let n = c.num_variables;
                c.strategy = Strategy::PerRound(vec![c.schedule[0], n, n]);
                n > 1
            },
            ..recipe("factors-never-reached", "accepted", "accepted")
        },
        Recipe {
            damage: Some("initial_ood_present"),
            ..recipe("initial-ood-unread", "accepted", "accepted")
        },
        Recipe {
            damage: Some("final_sumcheck_not_due"),
            ..recipe("final-sumcheck-unread", "accepted", "accepted")
        },
        Recipe {
            prepare: |draft| {
                draft.case.num_opening_claims = 1_000_000;
                true
            },
            ..recipe("claim-number-not-compared", "accepted", "accepted")
        },
        Recipe {
            size: ROUNDS,
            prepare: |draft| {
                let c = &mut draft.case.config;
                let derived = c.rounds.iter().all(|r| r.log_inv_rate == 1);
                c.round_log_inv_rates.clear();
                derived && c.starting_log_inv_rate == 1 && c.schedule[0] == 1
            },
            ..recipe("rates-not-listed", "accepted", "accepted")
        },
    ]
}

/// What the separator does not bind.
fn unbound() -> Vec<Recipe> {
    vec![
        Recipe {
            prepare: |draft| draft.case.config.num_variables == 1,
            damage: Some("order"),
            ..recipe("order-not-bound", "accepted", "accepted")
        },
        Recipe {
            prepare: |draft| matches!(draft.case.domain, DomainKind::Listed(_)),
            damage: Some("domain_list_swap"),
            ..recipe("list-not-bound", "accepted", "accepted")
        },
        Recipe {
            prepare: no_queries,
            damage: Some("config_final_queries_more"),
            ..recipe("saturated-queries-not-bound", "accepted", "accepted")
        },
    ]
}

/// Refused here, and accepted or met with a panic by the crate.
fn refused_by_rules() -> Vec<Recipe> {
    vec![
        Recipe {
            damage: Some("config_capacity"),
            ..recipe(
                "verifier-of-other-capacity",
                "refused 4 DomainMismatch capacity",
                "refused 4",
            )
        },
        Recipe {
            damage: Some("config_soundness_capacity"),
            prepare: |draft| matches!(draft.case.domain, DomainKind::Listed(_)),
            ..recipe(
                "verifier-of-other-soundness",
                "refused 4 DomainMismatch soundness",
                "refused 4",
            )
        },
        Recipe {
            prepare: |draft| {
                let c = &mut draft.case.config;
                c.starting_log_inv_rate = c.capacity + 1 - c.num_variables;
                c.terminal_queries = 3;
                draft.case.modulus == 257 && resettled(c)
            },
            size: Size {
                variables: 8,
                kept: 1 << 12,
                ..TINY
            },
            ..recipe("first-domain-past-capacity", "refused 3", "accepted")
        },
        Recipe {
            size: ROUNDS,
            damage: Some("config_rates_list"),
            ..recipe("listed-rates-disagree", "refused 3", "accepted")
        },
        Recipe {
            size: ROUNDS,
            damage: Some("config_stored_schedule_drop"),
            ..recipe("schedule-too-short", "refused 3", "panic")
        },
        Recipe {
            size: ROUNDS,
            damage: Some("config_round_number"),
            ..recipe("round-number-other", "refused 3", "panic")
        },
        Recipe {
            damage: Some("claim_point_short"),
            ..recipe("point-too-short", "refused 1", "panic")
        },
        Recipe {
            prepare: |draft| {
                let point = draft.points.first().cloned();
                draft.points = point.map_or(Vec::new(), |point| vec![point; 1025]);
                draft.case.degree == 1 && draft.case.config.num_variables == 1
            },
            ..recipe("claims-past-limit", "refused 1", "accepted")
        },
        Recipe {
            size: Size {
                variables: 11,
                opened: 1 << 12,
                kept: 1 << 12,
                ..TINY
            },
            prepare: |draft| {
                let c = &mut draft.case.config;
                c.strategy = Strategy::Constant(11);
                c.rounds.clear();
                c.round_log_inv_rates.clear();
                c.starting_log_inv_rate = 0;
                draft.case.degree == 1 && c.num_variables == 11 && resettled(c)
            },
            ..recipe("fold-past-limit", "refused 1", "accepted")
        },
        Recipe {
            prepare: |draft| {
                let c = &mut draft.case.config;
                c.starting_log_inv_rate = 11;
                c.terminal_queries = 1025;
                draft.case.scheme = SchemeKind::Kept(Vec::new());
                c.num_variables == 1 && c.capacity == 16 && resettled(c)
            },
            ..recipe("rows-past-limit", "refused 1", "accepted")
        },
    ]
}

fn no_queries(draft: &mut Draft) -> bool {
    let c = &mut draft.case.config;
    c.terminal_queries = 0;
    let phases = phases(c);
    phases[phases.len() - 1].positions < 6
}

/// Sets the numbers that follow from others.
fn resettled(config: &mut Config) -> bool {
    settle(config);
    true
}

fn made(recipe: &Recipe, rng: &mut Rng) -> Shown {
    loop {
        let modulus = *rng.pick(&[257, 65537]);
        let degree = *rng.pick(&[1, 2]);
        let mut draft = draft_over(rng, &recipe.size, modulus, degree);
        if !(recipe.prepare)(&mut draft) {
            continue;
        }
        let Some(mut case) = honest(&draft, &Sponge::new(draft.case.sponge), rng) else {
            continue;
        };
        let whole = case.clone();
        if let Some(name) = recipe.damage {
            let (_, damage) = KINDS
                .iter()
                .find(|(kind, _)| *kind == name)
                .expect("a kind");
            if !damage(&mut case, rng) || case == whole {
                continue;
            }
        }
        case.name = recipe.name.replace('-', "_");
        let (rules, bare) = (judge(&case), judge_bare(&case));
        if rules.answer.starts_with(recipe.by_rules) && bare.answer.starts_with(recipe.by_crate) {
            case.stated = Some(rules.stated());
            return Shown {
                name: recipe.name,
                case,
                by_rules: rules.answer,
                by_crate: bare.answer,
            };
        }
    }
}

/// A false claim that is accepted because a challenge hit a root.
fn accident(rng: &mut Rng) -> Shown {
    loop {
        let draft = draft_over(rng, &TINY, 257, 1);
        let new = Sponge::new(draft.case.sponge);
        let Some(mut case) = cheating(&draft, &new, CHEATS[0], rng) else {
            continue;
        };
        let verdict = judge(&case);
        assert!(rules::config(&case.config).is_ok());
        if verdict.accepted() {
            case.name = "false_claim_accepted".into();
            case.stated = Some(verdict.stated());
            return Shown {
                name: "false-claim-accepted",
                by_crate: judge_bare(&case).answer,
                by_rules: verdict.answer,
                case,
            };
        }
    }
}
