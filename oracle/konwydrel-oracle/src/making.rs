//! Making cases and sessions from a seed.

use crate::case::Case;
use crate::damage;
use crate::drafts::{Size, draft};
use crate::judge::{judge, judge_on};
use crate::rng::Rng;
use crate::sponge::Sponge;
use crate::writer::{CHEATS, Cheat, Draft, write};

/// What is to be made of a draft.
#[derive(Clone, Copy, Debug, PartialEq, Eq)]
pub enum Plan {
    Honest,
    Cheat,
    Damaged,
    DamagedTwice,
}

impl Plan {
    /// Of ten, two honest, two by a cheating writer, four damaged, two damaged twice.
    fn any(rng: &mut Rng) -> Self {
        *rng.pick(&[
            Self::Honest,
            Self::Honest,
            Self::Cheat,
            Self::Cheat,
            Self::Damaged,
            Self::Damaged,
            Self::Damaged,
            Self::Damaged,
            Self::DamagedTwice,
            Self::DamagedTwice,
        ])
    }
}

/// The honest case of a draft, on a sponge on which its history is still to be made.
pub fn honest(draft: &Draft, sponge: &Sponge, rng: &mut Rng) -> Option<Case> {
    let mut met = sponge.clone();
    met.make(&draft.case.history);
    write(draft, met, None, rng).map(|(case, _)| case)
}

/// The case of a writer with this cheat; nothing, if there was no occasion.
pub fn cheating(
    draft: &Draft,
    sponge: &Sponge,
    (name, cheat): (&str, Cheat),
    rng: &mut Rng,
) -> Option<Case> {
    let mut met = sponge.clone();
    met.make(&draft.case.history);
    let (mut case, _) = write(draft, met, Some(cheat), rng)?;
    case.name = name.into();
    Some(case)
}

/// One damage, or two, to an honest case.
pub fn damaged(honest: &Case, times: usize, rng: &mut Rng) -> Case {
    let mut case = honest.clone();
    let names: Vec<&str> = (0..times).map(|_| damage::any(&mut case, rng)).collect();
    case.name = names.join("+");
    case
}

/// A case by a plan, not yet answered.
fn made(rng: &mut Rng, size: &Size, sponge: Option<&Sponge>) -> Case {
    loop {
        let mut draft = draft(rng, size);
        let start = match sponge {
            None => Sponge::new(draft.case.sponge),
            Some(sponge) => {
                draft.case.sponge = kind_of(sponge);
                sponge.clone()
            }
        };
        let case = match Plan::any(rng) {
            Plan::Honest => honest(&draft, &start, rng),
            Plan::Cheat => {
                let cheat = *rng.pick(&CHEATS);
                cheating(&draft, &start, cheat, rng)
            }
            Plan::Damaged => honest(&draft, &start, rng).map(|case| damaged(&case, 1, rng)),
            Plan::DamagedTwice => honest(&draft, &start, rng).map(|case| damaged(&case, 2, rng)),
        };
        if let Some(case) = case {
            return case;
        }
    }
}

const fn kind_of(sponge: &Sponge) -> crate::case::SpongeKind {
    match sponge {
        Sponge::Archive(_) => crate::case::SpongeKind::Archive,
        Sponge::Trial(_) => crate::case::SpongeKind::Trial,
    }
}

/// A case with its answer.
pub fn case(rng: &mut Rng, size: &Size) -> Case {
    let mut case = made(rng, size, None);
    case.stated = Some(judge(&case).stated());
    case
}

/// Cases verified in turn on one sponge: each is written for the sponge as the earlier ones
/// left it, and states its answer there.
pub fn session(rng: &mut Rng, size: &Size, length: usize) -> Vec<Case> {
    let mut cases: Vec<Case> = Vec::new();
    let mut sponge = None;
    while cases.len() < length {
        let mut case = made(rng, size, sponge.as_ref());
        if case.name.contains("sponge_kind") {
            continue;
        }
        let start = sponge.unwrap_or_else(|| Sponge::new(case.sponge));
        let verdict = judge_on(&case, start);
        case.stated = Some(verdict.stated());
        sponge = Some(verdict.sponge);
        cases.push(case);
    }
    cases
}

/// Each case of a session by itself, the calls of the earlier ones as its history.
pub fn chained(session: &[Case]) -> Vec<Case> {
    let mut calls = Vec::new();
    let mut sponge = Sponge::new(session[0].sponge);
    session
        .iter()
        .map(|member| {
            let mut case = member.clone();
            case.name.push_str("_chained");
            calls.extend(member.history.iter().cloned());
            case.history.clone_from(&calls);
            let verdict = judge_on(member, sponge.clone());
            sponge = verdict.sponge;
            calls.extend(verdict.calls);
            case
        })
        .collect()
}

/// The answers of a list of cases, in turn on one new sponge of the first one's kind.
pub fn answers(session: &[Case]) -> Vec<crate::case::Stated> {
    let mut sponge = Sponge::new(session[0].sponge);
    session
        .iter()
        .map(|case| {
            let verdict = judge_on(case, sponge.clone());
            sponge = verdict.sponge.clone();
            verdict.stated()
        })
        .collect()
}
