//! The stored sample: small cases of every kind, with every answer that a case can have.

use std::collections::BTreeMap;
use std::path::Path;

use crate::case::{Case, DomainKind, Order, SchemeKind, SpongeKind};
use crate::damage::KINDS;
use crate::differences::shown;
use crate::drafts::{SMALL, Size, draft, draft_over};
use crate::judge::judge;
use crate::making::{chained, cheating, damaged, honest, session};
use crate::rng::Rng;
use crate::sponge::Sponge;
use crate::writer::CHEATS;

const TINY: Size = Size {
    variables: 5,
    opened: 1 << 6,
    kept: 1 << 6,
    claims: 2,
    ..SMALL
};

const ROUNDS: Size = Size {
    variables: 12,
    cost: 1 << 23,
    opened: 3 << 8,
    kept: 1 << 11,
    claims: 2,
    rounds: 1,
};

/// Bytes of a case that is stored only if it is the first of its kind.
const LONG: usize = 12_000;

/// Cases under names, each with its answer.
struct Sample {
    rng: Rng,
    cases: Vec<(String, Case)>,
}

/// Writes the sample that a seed settles.
pub fn write(folder: &Path, seed: u64) -> Result<(), String> {
    let mut sample = Sample {
        rng: Rng::new(seed),
        cases: Vec::new(),
    };
    sample.honest_everywhere();
    sample.honest_rounds();
    sample.cheats();
    sample.damages();
    sample.pairs();
    sample.answers_thrice();
    sample.sessions();
    for shown in shown(seed) {
        let name = format!("differences/{}.txt", shown.name);
        sample.cases.push((name, shown.case));
    }
    for (name, case) in &sample.cases {
        let path = folder.join(name);
        let inner = path.parent().ok_or("a file in no folder")?;
        std::fs::create_dir_all(inner)
            .and_then(|()| std::fs::write(&path, case.text()))
            .map_err(|e| format!("{}: {e}", path.display()))?;
    }
    println!("{} cases", sample.cases.len());
    Ok(())
}

/// The answer without its values: number, name, and the words among the values.
fn class(case: &Case) -> String {
    let answer = &case.stated.as_ref().expect("an answer").answer;
    let words = answer.split(' ').enumerate();
    let kept: Vec<&str> = words
        .filter(|(place, word)| *place < 2 || word.parse::<u64>().is_err())
        .map(|(_, word)| word)
        .collect();
    if answer.starts_with("accepted") {
        "accepted".into()
    } else {
        kept.join(" ")
    }
}

fn answered(mut case: Case) -> Case {
    case.stated = Some(judge(&case).stated());
    case
}

impl Sample {
    /// Adds a case, unless it is long and one of its kind is there.
    fn add(&mut self, group: &str, case: Case) {
        let known = self.cases.iter().any(|(_, other)| other.name == case.name);
        let needed = group == "rounds" || !known && ["damage", "cheat"].contains(&group);
        if case.text().len() > LONG && !needed {
            return;
        }
        let name = format!("cases/{group}-{:03}.txt", self.cases.len());
        self.cases.push((name, case));
    }

    /// The shortest of so many cases that a maker makes.
    fn shortest(
        &mut self,
        tries: usize,
        mut make: impl FnMut(&mut Rng) -> Option<Case>,
    ) -> Option<Case> {
        (0..tries)
            .filter_map(|_| make(&mut self.rng))
            .min_by_key(|case| case.text().len())
            .map(answered)
    }

    /// Every tower with every domain, scheme, sponge and order.
    fn honest_everywhere(&mut self) {
        for place in 0..128 {
            let modulus = [257, 65537][place & 1];
            let degree = [1, 2, 4, 8][place >> 1 & 3];
            let listed = place >> 3 & 1 == 1;
            let made = self.shortest(40, |rng| {
                let mut draft = draft_over(rng, &TINY, modulus, degree);
                if matches!(draft.case.domain, DomainKind::Listed(_)) != listed {
                    return None;
                }
                draft.case.scheme = match place >> 4 & 1 {
                    0 => SchemeKind::Merkle,
                    _ => SchemeKind::Kept(Vec::new()),
                };
                draft.case.sponge = [SpongeKind::Archive, SpongeKind::Trial][place >> 5 & 1];
                draft.case.order = [Order::Prefix, Order::Suffix][place >> 6 & 1];
                draft.case.name = "honest".into();
                // One variable shows nothing of the orders.
                let plain = draft.case.config.num_variables < 2 || draft.points.is_empty();
                if plain {
                    return None;
                }
                honest(&draft, &Sponge::new(draft.case.sponge), rng)
            });
            self.cases
                .extend(made.map(|case| (format!("cases/honest-{place:03}.txt"), case)));
        }
    }

    /// One to four rounds.
    fn honest_rounds(&mut self) {
        for place in 0..24 {
            let modulus = if place % 6 < 2 { 257 } else { 65537 };
            let degree = [1, 2, 4, 8][place % 4];
            let rounds = [1, 1, 1, 2, 3, 4][place % 6];
            let size = Size {
                rounds,
                kept: 1 << 14,
                opened: 1 << 10,
                ..ROUNDS
            };
            let made = self.shortest(8, |rng| {
                let mut draft = draft_over(rng, &size, modulus, degree);
                if rounds > 1 {
                    draft.case.scheme = SchemeKind::Merkle;
                }
                honest(&draft, &Sponge::new(draft.case.sponge), rng)
            });
            if let Some(case) = made {
                self.add("rounds", case);
            }
        }
    }

    fn cheats(&mut self) {
        for (name, cheat) in CHEATS {
            for size in [TINY, ROUNDS, ROUNDS] {
                let made = self.shortest(6, |rng| {
                    let draft = draft(rng, &size);
                    cheating(&draft, &Sponge::new(draft.case.sponge), (name, cheat), rng)
                });
                if let Some(case) = made {
                    self.add("cheat", case);
                }
            }
        }
    }

    fn damages(&mut self) {
        for (name, damage) in KINDS {
            for size in [TINY, TINY, ROUNDS] {
                let made = self.shortest(6, |rng| {
                    let draft = draft(rng, &size);
                    let mut case = honest(&draft, &Sponge::new(draft.case.sponge), rng)?;
                    case.name = (*name).into();
                    damage(&mut case, rng).then_some(case)
                });
                if let Some(case) = made {
                    self.add("damage", case);
                }
            }
        }
    }

    fn pairs(&mut self) {
        for place in 0..60 {
            let size = if place % 3 == 0 { ROUNDS } else { TINY };
            let made = self.shortest(3, |rng| {
                let draft = draft(rng, &size);
                let case = honest(&draft, &Sponge::new(draft.case.sponge), rng)?;
                Some(damaged(&case, 2, rng))
            });
            if let Some(case) = made {
                self.add("pair", case);
            }
        }
    }

    /// Every answer that is still met less than three times, once more.
    fn answers_thrice(&mut self) {
        let mut met: BTreeMap<String, usize> = BTreeMap::new();
        for (_, case) in &self.cases {
            *met.entry(class(case)).or_default() += 1;
        }
        for _ in 0..2000 {
            let size = if self.rng.one_in(2) { ROUNDS } else { TINY };
            let made = self.shortest(1, |rng| {
                let draft = draft(rng, &size);
                let case = honest(&draft, &Sponge::new(draft.case.sponge), rng)?;
                Some(damaged(&case, 1, rng))
            });
            let Some(case) = made else { continue };
            let count = met.entry(class(&case)).or_default();
            if *count < 3 {
                *count += 1;
                self.add("more", case);
            }
        }
        for (answer, count) in met {
            println!("{count:5} {answer}");
        }
    }

    /// Sessions, a folder each, and their cases by themselves.
    fn sessions(&mut self) {
        let mut number = 0;
        while number < 16 {
            let size = if number % 4 == 0 { ROUNDS } else { TINY };
            let length = 2 + number % 4;
            let cases = session(&mut self.rng, &size, length);
            let long = cases.iter().map(|case| case.text().len()).sum::<usize>() > 40_000;
            if long || !cases.iter().any(|case| class(case) == "accepted") {
                continue;
            }
            for (place, case) in cases.iter().enumerate() {
                let name = format!("sessions/{number:02}/{place}.txt");
                self.cases.push((name, case.clone()));
            }
            for case in chained(&cases).into_iter().skip(1) {
                if case.text().len() < 20_000 {
                    self.add("chained", answered(case));
                }
            }
            number += 1;
        }
    }
}
