//! The oracle against its own writer, its damage and its stored sample.

use std::collections::{BTreeMap, BTreeSet};

use konwydrel_oracle::case::{Call, Case, DomainKind, SchemeKind};
use konwydrel_oracle::compare::check;
use konwydrel_oracle::drafts::{HUGE, LARGE, SMALL, Size, USUAL, draft, draft_over};
use konwydrel_oracle::hash::hash;
use konwydrel_oracle::judge::{Verdict, judge, keep_panics, shape};
use konwydrel_oracle::making::{chained, cheating, damaged, honest, session};
use konwydrel_oracle::rng::Rng;
use konwydrel_oracle::sponge::Sponge;
use konwydrel_oracle::writer::numbers::separator;
use konwydrel_oracle::writer::{CHEATS, write};
use konwydrel_oracle::{differences, vectors};
use p3_field::{Pair, Residue, TwoAdicField};
use p3_whir::parameters::{FoldingFactor, FoldingFactorError};
use p3_whir::transcript::query_draws;

/// The crate's files are as published: their BLAKE2s digests.
#[test]
fn the_published_files_are_unchanged() {
    let published = [
        (
            "domain.rs",
            "99593b910e812150b656c77fb85d6a88efa36958aadbb816e362fe1234b17168",
        ),
        (
            "parameters/folding.rs",
            "afe9ec3b8f71f104a226a2570a569d3999465e61a8294a05da2e3e1e0579840f",
        ),
        (
            "parameters/mod.rs",
            "4ca7135194f3f34eee8960080b94ec2cc87a9d221444b5cd226a8a7eb5705b0b",
        ),
        (
            "parameters/whir.rs",
            "ab28c9c1b9fd6a5c42730dfbe2e373b17bf124650cfea4943e42f9f29f08024b",
        ),
        (
            "pcs/committer/reader.rs",
            "28fbe8dbb4b0d6645cf8520390c48d2ea537f1f81bb2422ecbc00ca7e2c1aaf3",
        ),
        (
            "pcs/proof.rs",
            "a9e0990a3646931b449b350c23b2a216b1dd307b3d5c21c4aaec4718894356fe",
        ),
        (
            "pcs/verifier/errors.rs",
            "7d8cb76a37042b77d0da9719190a8c3d8179806c5426d2c41f74d2492ef37f9f",
        ),
        (
            "pcs/verifier/mod.rs",
            "65f9886a252fd7814f23b3ec61f10cb6c0e4d76688479308355ee6f6e4122900",
        ),
        (
            "transcript/mod.rs",
            "ea1c0e7a563dffbadf713606d2e7d93aec8d24f743390527836fb2c1ab871cb1",
        ),
    ];
    for (file, digest) in published {
        let path = format!("{}/../p3-whir/src/{file}", env!("CARGO_MANIFEST_DIR"));
        let bytes = std::fs::read(&path).expect("a published file");
        assert_eq!(konwydrel_oracle::case::hex(&hash(&bytes)), digest, "{file}");
    }
}

/// An honest case is accepted with n challenges, and verifying leaves the sponge as the writer
/// left it, after the calls that it made.
fn accepted(rng: &mut Rng, size: &Size, tower: (u32, usize)) -> Option<Case> {
    let draft = draft_over(rng, size, tower.0, tower.1);
    let mut met = Sponge::new(draft.case.sponge);
    met.make(&draft.case.history);
    let (case, left) = write(&draft, met.clone(), None, rng)?;
    let verdict = judge(&case);
    assert!(verdict.accepted(), "{}\n{}", verdict.answer, case.text());
    assert_eq!(verdict.by, "crate");
    let n = case.config.num_variables as usize;
    assert_eq!(verdict.answer.split(' ').count(), 2 + n * case.degree);
    assert_eq!(verdict.sponge, left);
    met.make(&verdict.calls);
    assert_eq!(verdict.sponge, met);
    assert_eq!(Case::parse(&case.text()).as_ref(), Ok(&case));
    Some(case)
}

#[test]
fn honest_proofs_are_accepted() {
    keep_panics();
    let mut rng = Rng::new(1);
    let mut settings = BTreeSet::new();
    let mut rounds = BTreeMap::new();
    let mut variables = BTreeSet::new();
    let mut count = 0;
    let sizes = [
        (USUAL, 450),
        (Size { rounds: 1, ..USUAL }, 60),
        (Size { rounds: 2, ..LARGE }, 10),
        (Size { rounds: 3, ..LARGE }, 5),
        (Size { rounds: 4, ..LARGE }, 5),
        (LARGE, 20),
        (HUGE, 10),
    ];
    for tower in towers() {
        for (size, times) in sizes {
            for _ in 0..times {
                let Some(case) = accepted(&mut rng, &size, tower) else {
                    continue;
                };
                count += 1;
                *rounds.entry(case.config.rounds.len()).or_insert(0) += 1;
                variables.insert(case.config.num_variables);
                settings.insert(format!(
                    "{tower:?} {} {} {:?} {:?}",
                    matches!(case.domain, DomainKind::Listed(_)),
                    matches!(case.scheme, SchemeKind::Merkle),
                    case.sponge,
                    case.order
                ));
            }
        }
    }
    println!("{count} honest proofs accepted; by rounds {rounds:?}, variables {variables:?}");
    assert!(count > 4000);
    assert_eq!(settings.len(), 128);
    assert!((1..=12).all(|n| variables.contains(&n)), "{variables:?}");
    assert!((0..=4).all(|m| rounds[&m] >= 20), "{rounds:?}");
}

fn towers() -> impl Iterator<Item = (u32, usize)> {
    [257, 65537]
        .into_iter()
        .flat_map(|modulus| [1, 2, 4, 8].map(|degree| (modulus, degree)))
}

/// What holds of every answer.
fn sound(case: &Case, verdict: &Verdict, met: &mut BTreeMap<u32, usize>) {
    let number = verdict.number();
    *met.entry(number).or_default() += 1;
    assert!(number < 98, "{}\n{}", verdict.answer, case.text());
    let early = [1, 2, 3, 4, 10, 11].contains(&number);
    assert_eq!(verdict.calls.is_empty(), early, "{}", verdict.answer);
    let rules = [1, 2, 3].contains(&number);
    assert_eq!(verdict.by == "rules", rules);
    assert_eq!(Case::parse(&case.text()).as_ref(), Ok(case));
}

#[test]
fn damaged_cases_never_panic() {
    keep_panics();
    let mut rng = Rng::new(2);
    let mut met = BTreeMap::new();
    for round in 0..1500 {
        let size = Size {
            rounds: usize::from(round % 2 == 0),
            ..if round % 3 == 0 { USUAL } else { SMALL }
        };
        let draft = draft(&mut rng, &size);
        let new = Sponge::new(draft.case.sponge);
        let Some(whole) = honest(&draft, &new, &mut rng) else {
            continue;
        };
        for place in 0..24 {
            let times = 1 + usize::from(place >= 15) + usize::from(place >= 23);
            let case = damaged(&whole, times, &mut rng);
            sound(&case, &judge(&case), &mut met);
        }
        if round % 4 > 0 {
            continue;
        }
        for cheat in CHEATS {
            if let Some(case) = cheating(&draft, &new, cheat, &mut rng) {
                sound(&case, &judge(&case), &mut met);
            }
        }
    }
    println!("answers by number (0 accepted): {met:?}");
    let seen: BTreeSet<u32> = met.keys().copied().collect();
    let every = [0, 1, 2, 3, 4].into_iter().chain(10..=21).collect();
    assert_eq!(seen, every);
    assert!(met.values().sum::<usize>() > 30_000);
}

/// A case of a session, by itself with the earlier calls as its history, answers the same.
#[test]
fn sessions_are_their_calls() {
    keep_panics();
    let mut rng = Rng::new(3);
    for _ in 0..400 {
        let length = rng.from_to(2, 6) as usize;
        let cases = session(&mut rng, &SMALL, length);
        for (member, alone) in cases.iter().zip(chained(&cases)) {
            assert_eq!(member.stated, Some(judge(&alone).stated()));
        }
        let calls: usize = cases.iter().map(|case| case.history.len()).sum();
        let last = chained(&cases).pop().expect("a session has cases");
        assert!(last.history.len() >= calls);
        assert!(
            last.history
                .iter()
                .all(|call| !matches!(call, Call::Observe(b) if b.len() > 4096))
        );
    }
}

/// The stored sample, beside the oracle.
fn stored(folder: &str) -> std::path::PathBuf {
    std::path::PathBuf::from(format!(
        "{}/../../cases-sample/{folder}",
        env!("CARGO_MANIFEST_DIR")
    ))
}

#[test]
fn stored_cases_state_the_answers() {
    keep_panics();
    for folder in ["cases", "sessions", "differences"] {
        let (count, differences) = check(&stored(folder)).expect("a stored folder");
        assert!(count >= 16);
        assert!(differences.is_empty(), "{}", differences.join("\n"));
    }
}

/// The differences are made anew, each with the answers that it is to show, and are stored.
#[test]
fn differences_are_shown() {
    keep_panics();
    for shown in differences::shown(2026) {
        let file = stored("differences").join(format!("{}.txt", shown.name));
        let text = std::fs::read_to_string(&file).expect("a stored difference");
        assert_eq!(text, shown.case.text(), "{}", shown.name);
    }
}

#[test]
fn small_facts_stand() {
    for name in ["schedules", "query_draws", "shapes", "basics"] {
        let path = stored("vectors").join(format!("{name}.txt"));
        let text = std::fs::read_to_string(&path).expect("stored facts");
        assert_eq!(
            vectors::again(&text).as_deref(),
            Ok(text.as_str()),
            "{name}"
        );
    }
}

/// The writer's separator is the crate's, for thousands of configurations; and with the base
/// field itself as the extension of degree 1 the crate's differs in the steps that carry
/// elements, and in nothing else.
#[test]
fn separators_agree() {
    let mut rng = Rng::new(4);
    let mut alone = 0;
    for _ in 0..3000 {
        let case = draft(&mut rng, &USUAL).case;
        let (config, claims) = (&case.config, case.num_opening_claims);
        let ours = separator(config, case.degree, claims);
        let (_, pieces) = shape(case.modulus, case.degree, false, config, claims);
        assert_eq!(ours, pieces);
        if case.degree == 1 {
            let (_, other) = shape(case.modulus, 1, true, config, claims);
            assert_eq!(pieces.len(), other.len());
            for (with, without) in pieces.iter().zip(&other).filter(|(a, b)| a != b) {
                assert_eq!((with[3], with[11]), (3, 1));
                assert_eq!((without[3], without[11]), (2, 0));
                alone += 1;
            }
        }
    }
    assert!(alone > 1000);
}

/// Readings that are known by heart.
#[test]
fn sample_readings() {
    let per_round = |list: &[usize]| FoldingFactor::PerRound(list.to_vec());
    let insufficient = FoldingFactorError::InsufficientFolding {
        num_variables: 15,
        remaining: 7,
        threshold: 6,
    };
    assert_eq!(
        per_round(&[8]).compute_folding_schedule(15),
        Err(insufficient)
    );
    let large = FoldingFactorError::TooLarge(8, 7);
    assert_eq!(per_round(&[8, 8]).compute_folding_schedule(15), Err(large));
    let constant = |f| FoldingFactor::Constant(f).compute_folding_schedule(15);
    assert_eq!(constant(4), Ok(vec![4, 4, 4]));
    assert_eq!(constant(8), Ok(vec![8, 7]));
    assert_eq!(
        (query_draws(8, 7), query_draws(8, 8), query_draws(8, 0)),
        (7, 0, 0)
    );
    let one = Residue::<257>::new(1);
    let square = Pair(one, one) * Pair(one, one);
    assert_eq!(square, Pair(Residue::new(4), Residue::new(2)));
    assert_eq!(Residue::<257>::two_adic_generator(1).value(), 256);
    assert_eq!(Residue::<257>::two_adic_generator(2).value(), 241);
}
