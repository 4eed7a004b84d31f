//! Damage to a written case: one number, count, place or part at a time.

use crate::case::{
    Call, Case, Claim, Commitment, Config, DomainKind, El, Opening, Order, Proof, RowKind,
    SchemeKind, SpongeKind, Strategy, Sumcheck,
};
use crate::drafts;
use crate::rng::Rng;
use crate::rules;
use crate::writer::numbers::{phases, schedule, settle};

/// A kind of damage; it says whether there was something to damage.
pub type Damage = fn(&mut Case, &mut Rng) -> bool;

/// Does one kind of damage at random, and names it.
pub fn any(case: &mut Case, rng: &mut Rng) -> &'static str {
    loop {
        let (name, damage) = rng.pick(KINDS);
        if damage(case, rng) {
            return name;
        }
    }
}

pub const KINDS: &[(&str, Damage)] = &[
    // Sumchecks.
    ("message", |c, r| {
        let (p, d) = tower(c);
        with(messages(c, r), r, |pair, r| {
            change(p, d, &mut pair[r.place(2)], r)
        })
    }),
    ("message_swap", |c, r| {
        with(messages(c, r), r, |pair, _| pair.swap(0, 1))
    }),
    ("message_drop", |c, r| drop_one(messages(c, r), r)),
    ("message_extra", |c, r| add_one(messages(c, r), r)),
    ("messages_none", |c, r| clear(messages(c, r))),
    ("messages_turned", |c, r| turn(messages(c, r))),
    ("message_and_witness_drop", |c, r| {
        let s = sumcheck(c, r);
        s.messages.pop().is_some() && s.witnesses.pop().is_some()
    }),
    ("message_and_witness_extra", |c, r| {
        let s = sumcheck(c, r);
        let with_witness = !s.witnesses.is_empty();
        s.messages.push([El::default(); 2]);
        if with_witness {
            s.witnesses.push(0);
        }
        true
    }),
    ("witness", |c, r| {
        let p = u64::from(c.modulus);
        let list = &mut sumcheck(c, r).witnesses;
        with(list, r, |w, r| {
            *w = ((u64::from(*w) + r.from_to(1, p - 1)) % p) as u32
        })
    }),
    ("witness_drop", |c, r| {
        drop_one(&mut sumcheck(c, r).witnesses, r)
    }),
    ("witness_extra", |c, r| {
        sumcheck(c, r).witnesses.push(0);
        true
    }),
    ("witnesses_none", |c, r| {
        clear(&mut sumcheck(c, r).witnesses)
    }),
    ("sumchecks_swapped", |c, r| {
        let mut all = sumchecks(&mut c.proof);
        if all.len() < 2 {
            return false;
        }
        let place = r.place(all.len() - 1);
        let (a, b) = all.split_at_mut(place + 1);
        std::mem::swap(a[place], b[0]);
        true
    }),
    // Rounds.
    ("commitment_changed", |c, r| {
        with(&mut c.proof.rounds, r, |round, r| {
            if let Some(commitment) = &mut round.commitment {
                change_commitment(commitment, r);
            }
        })
    }),
    ("commitment_missing", |c, r| {
        with(&mut c.proof.rounds, r, |round, _| round.commitment = None)
    }),
    ("commitments_missing", |c, _| {
        c.proof
            .rounds
            .iter_mut()
            .for_each(|round| round.commitment = None);
        !c.proof.rounds.is_empty()
    }),
    ("commitment_of_before", |c, r| {
        let first = c.first_commitment;
        with(&mut c.proof.rounds, r, |round, _| {
            round.commitment = Some(first)
        })
    }),
    ("ood_changed", |c, r| {
        let (p, d) = tower(c);
        with(ood(c, r), r, |answer, r| change(p, d, answer, r))
    }),
    ("ood_drop", |c, r| drop_one(ood(c, r), r)),
    ("ood_extra", |c, r| {
        let any = !c.proof.rounds.is_empty();
        ood(c, r).push(El::default());
        any
    }),
    ("ood_none", |c, r| clear(ood(c, r))),
    ("ood_turned", |c, r| turn(ood(c, r))),
    ("round_added", |c, r| {
        let last = c
            .proof
            .rounds
            .last()
            .cloned()
            .unwrap_or_else(|| empty_round(c));
        let place = r.place(c.proof.rounds.len() + 1);
        c.proof.rounds.insert(place, last);
        true
    }),
    ("round_dropped", |c, r| drop_one(&mut c.proof.rounds, r)),
    ("rounds_none", |c, _| clear(&mut c.proof.rounds)),
    ("rounds_swapped", |c, _| turn(&mut c.proof.rounds)),
    ("query_witness", |c, r| {
        let p = c.modulus;
        let phase = r.place(c.proof.rounds.len() + 1);
        let witness = query_witness(c, phase);
        *witness = (*witness + 1 + r.below(u64::from(p) - 1) as u32) % p;
        true
    }),
    ("query_witness_undue", |c, r| {
        if rules::config(&c.config).is_err() {
            return false;
        }
        let idle: Vec<usize> = phases(&c.config)
            .iter()
            .enumerate()
            .filter(|(_, phase)| phase.query_bits == 0)
            .map(|(i, _)| i)
            .collect();
        if idle.is_empty() {
            return false;
        }
        let p = u64::from(c.modulus);
        *query_witness(c, *r.pick(&idle)) = r.from_to(1, p - 1) as u32;
        true
    }),
    // Openings.
    ("rows_kind", |c, r| {
        let o = opening(c, r);
        o.kind = match o.kind {
            RowKind::Base => RowKind::Extension,
            RowKind::Extension => RowKind::Base,
        };
        let base = o.kind == RowKind::Base;
        if base {
            o.elements.iter_mut().for_each(|e| e.0[1..].fill(0));
        }
        true
    }),
    ("rows_count_less", |c, r| {
        let o = opening(c, r);
        let (width, levels) = shape(o);
        o.count -= 1;
        o.elements.truncate(o.elements.len() - width);
        o.paths.truncate(o.paths.len() - levels);
        true
    }),
    ("rows_count_more", |c, r| {
        let o = opening(c, r);
        let (width, levels) = shape(o);
        o.count += 1;
        o.elements.extend_from_within(..width);
        o.paths.extend_from_within(..levels);
        true
    }),
    ("rows_count_only", |c, r| {
        let o = opening(c, r);
        o.count = if r.one_in(2) {
            o.count + 1
        } else {
            o.count - 1
        };
        true
    }),
    ("rows_count_far", |c, r| {
        opening(c, r).count = *r.pick(&[0, 5000, 1 << 32, u64::MAX]);
        true
    }),
    ("rows_none", |c, r| {
        let o = opening(c, r);
        o.count = 0;
        clear(&mut o.elements) | clear(&mut o.paths)
    }),
    ("row_value", |c, r| {
        let (p, d) = tower(c);
        let o = opening(c, r);
        let d = if o.kind == RowKind::Base { 1 } else { d };
        with(&mut o.elements, r, |e, r| change(p, d, e, r))
    }),
    ("rows_value_drop", |c, r| {
        drop_one(&mut opening(c, r).elements, r)
    }),
    ("rows_value_extra", |c, r| {
        add_one(&mut opening(c, r).elements, r)
    }),
    ("rows_values_none", |c, r| {
        clear(&mut opening(c, r).elements)
    }),
    ("rows_turned", |c, r| turn(&mut opening(c, r).elements)),
    ("rows_swapped", |c, r| {
        let o = opening(c, r);
        let (width, _) = shape(o);
        if o.count < 2 {
            return false;
        }
        o.elements.rotate_left(width);
        true
    }),
    ("path_bit", |c, r| {
        with(&mut opening(c, r).paths, r, |node, r| {
            node[r.place(32)] ^= 1 << r.place(8)
        })
    }),
    ("path_drop", |c, r| drop_one(&mut opening(c, r).paths, r)),
    ("path_extra", |c, r| {
        opening(c, r).paths.push([7; 32]);
        true
    }),
    ("path_none", |c, r| clear(&mut opening(c, r).paths)),
    ("path_swap", |c, r| {
        let paths = &mut opening(c, r).paths;
        if paths.len() < 2 {
            return false;
        }
        let place = r.place(paths.len() - 1);
        paths.swap(place, place + 1);
        true
    }),
    ("paths_turned", |c, r| turn(&mut opening(c, r).paths)),
    ("openings_swapped", |c, _| {
        let Some(first) = c.proof.rounds.first_mut() else {
            return false;
        };
        std::mem::swap(&mut first.opening, &mut c.proof.final_opening);
        true
    }),
    // The final polynomial and the final sumcheck.
    ("final_poly_value", |c, r| {
        let (p, d) = tower(c);
        c.proof
            .final_poly
            .as_mut()
            .is_some_and(|f| with(f, r, |e, r| change(p, d, e, r)))
    }),
    ("final_poly_turned", |c, _| {
        c.proof.final_poly.as_mut().is_some_and(|f| turn(f))
    }),
    ("final_poly_missing", |c, _| {
        c.proof.final_poly.take().is_some()
    }),
    ("final_poly_empty", |c, _| {
        c.proof.final_poly.as_mut().is_some_and(clear)
    }),
    ("final_poly_drop", |c, r| {
        c.proof.final_poly.as_mut().is_some_and(|f| drop_one(f, r))
    }),
    ("final_poly_extra", |c, r| {
        c.proof.final_poly.as_mut().is_some_and(|f| add_one(f, r))
    }),
    ("final_poly_double", |c, _| {
        c.proof.final_poly.as_mut().is_some_and(|f| {
            f.extend_from_within(..);
            true
        })
    }),
    ("final_sumcheck_missing", |c, _| {
        c.proof.final_sumcheck.take().is_some()
    }),
    ("final_sumcheck_empty", |c, _| {
        c.proof.final_sumcheck.replace(Sumcheck::default()) != Some(Sumcheck::default())
    }),
    ("final_sumcheck_not_due", |c, r| {
        if c.config.final_sumcheck_rounds > 0 {
            return false;
        }
        c.proof.final_sumcheck = Some(Sumcheck {
            messages: vec![[El::default(); 2]; r.place(3)],
            witnesses: vec![1; r.place(3)],
        });
        true
    }),
    ("initial_ood_present", |c, r| {
        let (p, d) = tower(c);
        let count = r.place(3) + 1;
        c.proof.initial_ood = drafts::point(r, p, d, count);
        true
    }),
    // Claims and the first commitment.
    ("num_opening_claims", |c, r| {
        let far = r.word();
        c.num_opening_claims = *r.pick(&[0, c.num_opening_claims ^ 1, u64::MAX, far]);
        true
    }),
    ("claim_value", |c, r| {
        let (p, d) = tower(c);
        with(&mut c.claims, r, |claim, r| {
            change(p, d, &mut claim.value, r)
        })
    }),
    ("claim_point", |c, r| {
        let (p, d) = tower(c);
        with(&mut c.claims, r, |claim, r| {
            with(&mut claim.point, r, |e, r| change(p, d, e, r));
        })
    }),
    ("claim_point_turned", |c, r| {
        with(&mut c.claims, r, |claim, _| claim.point.reverse())
    }),
    ("claim_point_short", |c, r| {
        with(&mut c.claims, r, |claim, _| {
            claim.point.pop();
        })
    }),
    ("claim_point_long", |c, r| {
        with(&mut c.claims, r, |claim, _| claim.point.push(El::default()))
    }),
    ("claim_point_none", |c, r| {
        with(&mut c.claims, r, |claim, _| claim.point.clear())
    }),
    ("claim_dropped", |c, r| drop_one(&mut c.claims, r)),
    ("claims_none", |c, _| clear(&mut c.claims)),
    ("claim_doubled", |c, r| add_one(&mut c.claims, r)),
    ("claim_added", |c, r| {
        let (p, d) = tower(c);
        let n = c.config.num_variables.min(17) as usize;
        let claim = Claim {
            point: drafts::point(r, p, d, n),
            value: drafts::point(r, p, d, 1)[0],
        };
        let place = r.place(c.claims.len() + 1);
        c.claims.insert(place, claim);
        true
    }),
    ("claims_swapped", |c, _| turn(&mut c.claims)),
    ("claims_1024", |c, r| many_claims(c, 1024, r)),
    ("claims_1025", |c, r| many_claims(c, 1025, r)),
    ("first_commitment", |c, r| {
        change_commitment(&mut c.first_commitment, r);
        true
    }),
    // The setting.
    ("order", |c, _| {
        c.order = match c.order {
            Order::Prefix => Order::Suffix,
            Order::Suffix => Order::Prefix,
        };
        true
    }),
    ("sponge_kind", |c, _| {
        c.sponge = match c.sponge {
            SpongeKind::Archive => SpongeKind::Trial,
            SpongeKind::Trial => SpongeKind::Archive,
        };
        true
    }),
    ("history_observe", |c, r| {
        let bytes = Call::Observe(r.bytes(5));
        let place = r.place(c.history.len() + 1);
        c.history.insert(place, bytes);
        true
    }),
    ("history_observe_nothing", |c, _| {
        c.history.push(Call::Observe(Vec::new()));
        true
    }),
    ("history_draw", |c, r| {
        let place = r.place(c.history.len() + 1);
        c.history.insert(place, Call::Draw);
        true
    }),
    ("history_dropped", |c, r| drop_one(&mut c.history, r)),
    ("history_turned", |c, _| turn(&mut c.history)),
    ("history_bit", |c, r| {
        with(&mut c.history, r, |call, r| match call {
            Call::Observe(bytes) if !bytes.is_empty() => {
                let place = r.place(bytes.len());
                bytes[place] ^= 1;
            }
            call => *call = Call::Observe(vec![0]),
        })
    }),
    ("domain_list_swap", |c, r| match &mut c.domain {
        DomainKind::Listed(list) if list.len() > 1 => {
            let (a, b) = (r.place(list.len()), r.place(list.len()));
            list.swap(a, b);
            true
        }
        _ => false,
    }),
    ("domain_list_double", |c, r| match &mut c.domain {
        DomainKind::Listed(list) if list.len() > 1 => {
            let place = r.place(list.len() - 1);
            list[place] = list[place + 1];
            true
        }
        _ => false,
    }),
    ("domain_list_odd", |c, _| match &mut c.domain {
        DomainKind::Listed(list) => {
            list.pop();
            !list.len().is_power_of_two()
        }
        DomainKind::Subgroup => false,
    }),
    ("domain_list_half", |c, _| match &mut c.domain {
        DomainKind::Listed(list) if list.len() > 1 => {
            list.truncate(list.len() / 2);
            true
        }
        _ => false,
    }),
    ("domain_list_long", |c, _| match &mut c.domain {
        DomainKind::Listed(list) if c.modulus == 65537 => {
            *list = (0..1 << 13).collect();
            true
        }
        _ => false,
    }),
    ("domain_kind", |c, _| {
        c.domain = match c.domain {
            DomainKind::Listed(_) => DomainKind::Subgroup,
            DomainKind::Subgroup => {
                DomainKind::Listed((0..1 << c.config.capacity.min(8)).collect())
            }
        };
        true
    }),
    ("shelf_value", |c, r| {
        let p = c.modulus;
        shelves(c).is_some_and(|all| {
            with(all, r, |shelf, r| {
                with(&mut shelf.values, r, |v, _| *v = (*v + 1) % p);
            })
        })
    }),
    ("shelf_gone", |c, r| {
        shelves(c).is_some_and(|all| drop_one(all, r))
    }),
    ("shelf_first", |c, r| {
        shelves(c).is_some_and(|all| {
            let place = r.place(all.len());
            let again = all[place].clone();
            all.insert(0, again);
            true
        })
    }),
    ("shelf_taller", |c, r| {
        shelves(c).is_some_and(|all| {
            with(all, r, |shelf, _| {
                shelf.height += 1;
                shelf.values.extend(vec![0; shelf.width]);
            })
        })
    }),
    ("shelf_shorter", |c, r| {
        shelves(c).is_some_and(|all| {
            with(all, r, |shelf, _| {
                shelf.height = shelf.height.saturating_sub(1);
                shelf.values.truncate(shelf.height * shelf.width);
            })
        })
    }),
    ("shelf_narrower", |c, r| {
        shelves(c).is_some_and(|all| {
            with(all, r, |shelf, _| {
                shelf.width = shelf.width.saturating_sub(1);
                shelf.values.truncate(shelf.height * shelf.width);
            })
        })
    }),
    ("shelf_number_far", |c, r| match &mut c.first_commitment {
        Commitment::Shelf(number) => {
            *number = *r.pick(&[1000, u32::MAX]);
            true
        }
        Commitment::Digest(_) => false,
    }),
    ("tower_degree_up", |c, _| {
        c.degree *= 2;
        c.degree <= 8 || {
            c.degree /= 2;
            false
        }
    }),
    ("tower_modulus_up", |c, _| {
        let small = c.modulus == 257;
        c.modulus = 65537;
        small
    }),
    // The configuration.
    ("config_num_variables", |c, r| {
        step(&mut c.config.num_variables, r)
    }),
    ("config_num_variables_settled", |c, r| {
        settled(c, |config| {
            step(&mut config.num_variables, r);
        })
    }),
    ("config_capacity", |c, r| step(&mut c.config.capacity, r)),
    ("config_id", |c, r| {
        let id = &mut c.config.domain_id;
        match r.below(3) {
            0 => id.push(0),
            1 => *id = b"List".to_vec(),
            _ => return clear(id),
        }
        true
    }),
    ("config_id_32", |c, _| {
        c.config.domain_id = vec![1; 32];
        true
    }),
    ("config_id_33", |c, _| {
        c.config.domain_id = vec![1; 33];
        true
    }),
    ("config_strata", |c, _| {
        c.config.stratified = !c.config.stratified;
        true
    }),
    ("config_rate", |c, r| {
        step(&mut c.config.starting_log_inv_rate, r)
    }),
    ("config_rate_settled", |c, r| {
        settled(c, |config| {
            step(&mut config.starting_log_inv_rate, r);
        })
    }),
    ("config_rates_list", |c, r| {
        with(&mut c.config.round_log_inv_rates, r, |e, r| {
            step(e, r);
        })
    }),
    ("config_rates_extra", |c, _| {
        c.config.round_log_inv_rates.push(1);
        true
    }),
    ("config_rates_none", |c, _| {
        clear(&mut c.config.round_log_inv_rates)
    }),
    ("config_rates_settled", |c, r| {
        settled(c, |config| {
            with(&mut config.rounds, r, |round, r| {
                step(&mut round.log_inv_rate, r);
            });
            config.round_log_inv_rates = config.rounds.iter().map(|r| r.log_inv_rate).collect();
        })
    }),
    ("config_strategy", |c, r| {
        c.config.strategy = drafts::strategy(r, c.config.num_variables);
        true
    }),
    ("config_strategy_settled", |c, r| {
        settled(c, |config| {
            config.strategy = drafts::strategy(r, config.num_variables);
        })
    }),
    ("config_strategy_same_schedule", |c, _| {
        c.config.strategy = Strategy::PerRound(c.config.schedule.clone());
        true
    }),
    ("config_factor_unreached", |c, r| {
        match &mut c.config.strategy {
            Strategy::PerRound(list) => {
                let n = c.config.num_variables;
                list.push(r.from_to(1, n));
                list.len() <= 16
            }
            _ => false,
        }
    }),
    ("config_folding_zero", |c, r| {
        c.config.strategy = match r.below(4) {
            0 => Strategy::Constant(0),
            1 => Strategy::Second(0, 1),
            2 => Strategy::Second(1, 0),
            _ => Strategy::PerRound(vec![1, 0]),
        };
        true
    }),
    ("config_folding_large", |c, r| {
        let n = c.config.num_variables.min(1000);
        c.config.strategy = match r.below(3) {
            0 => Strategy::Constant(n + 1),
            1 => Strategy::Second(n + 1 + r.below(100), 1),
            _ => Strategy::PerRound(vec![1, n + 1]),
        };
        true
    }),
    ("config_folding_short", |c, _| {
        c.config.num_variables = c.config.num_variables.max(8);
        c.config.strategy = Strategy::PerRound(vec![1]);
        true
    }),
    ("config_folding_past", |c, _| {
        c.config.num_variables = c.config.num_variables.max(9);
        let n = c.config.num_variables;
        c.config.strategy = Strategy::PerRound(vec![n - 7, n]);
        true
    }),
    ("config_folding_empty", |c, _| {
        c.config.strategy = Strategy::PerRound(Vec::new());
        true
    }),
    ("config_folding_17", |c, _| {
        c.config.strategy = Strategy::PerRound(vec![1; 17]);
        true
    }),
    ("config_soundness", |c, r| {
        c.config.soundness = r.below(2);
        true
    }),
    ("config_soundness_capacity", |c, _| {
        c.config.soundness = 2;
        true
    }),
    ("config_soundness_far", |c, _| {
        c.config.soundness = 3;
        true
    }),
    ("config_security", |c, r| {
        step(&mut c.config.security_level, r)
    }),
    ("config_budget", |c, r| step(&mut c.config.pow_budget, r)),
    ("config_stored_schedule", |c, r| {
        with(&mut c.config.schedule, r, |k, r| {
            step(k, r);
        })
    }),
    ("config_stored_schedule_extra", |c, _| {
        c.config.schedule.push(1);
        true
    }),
    ("config_stored_schedule_drop", |c, r| {
        drop_one(&mut c.config.schedule, r)
    }),
    ("config_round_number", |c, r| {
        let kind = r.below(5);
        with(&mut c.config.rounds, r, |round, r| {
            let number = match kind {
                0 => &mut round.num_variables,
                1 => &mut round.folding_factor,
                2 => &mut round.log_inv_rate,
                3 => &mut round.domain_size,
                _ => &mut round.log_folded_domain_size,
            };
            step(number, r);
        })
    }),
    ("config_round_added", |c, _| {
        let again = c.config.rounds.last().cloned().unwrap_or_default();
        c.config.rounds.push(again);
        true
    }),
    ("config_round_dropped", |c, r| {
        drop_one(&mut c.config.rounds, r)
    }),
    ("config_queries", |c, r| {
        with(&mut c.config.rounds, r, |round, r| {
            step(&mut round.num_queries, r);
        })
    }),
    ("config_queries_more", |c, r| {
        let past = 1 << 15 | r.below(100);
        with(&mut c.config.rounds, r, |round, _| round.num_queries = past)
    }),
    ("config_ood", |c, r| {
        with(&mut c.config.rounds, r, |round, r| {
            step(&mut round.ood_samples, r);
        })
    }),
    ("config_pow", |c, r| {
        with(&mut c.config.rounds, r, |round, r| {
            step(&mut round.pow_bits, r);
        })
    }),
    ("config_round_fold_pow", |c, r| {
        with(&mut c.config.rounds, r, |round, r| {
            step(&mut round.folding_pow_bits, r);
        })
    }),
    ("config_commit_ood", |c, r| {
        step(&mut c.config.commitment_ood_samples, r)
    }),
    ("config_start_fold_pow", |c, r| {
        step(&mut c.config.starting_folding_pow_bits, r)
    }),
    ("config_final_queries", |c, r| {
        step(&mut c.config.terminal_queries, r)
    }),
    ("config_final_queries_more", |c, r| {
        c.config.terminal_queries = 1 << 15 | r.below(100);
        true
    }),
    ("config_final_pow", |c, r| {
        step(&mut c.config.terminal_pow_bits, r)
    }),
    ("config_final_fold_pow", |c, r| {
        step(&mut c.config.final_folding_pow_bits, r)
    }),
    ("config_final_rounds", |c, r| {
        step(&mut c.config.final_sumcheck_rounds, r)
    }),
    ("config_limit", |c, r| {
        let (most, number) = limited(&mut c.config, r);
        *number = *r.pick(&[most + 1, most + 2, 1 << 20, 1 << 32, u64::MAX]);
        true
    }),
    ("config_at_limit", |c, r| {
        let (most, number) = limited(&mut c.config, r);
        *number = most;
        true
    }),
    ("config_num_variables_none", |c, _| {
        c.config.num_variables = 0;
        true
    }),
    ("config_k_11", |c, r| {
        other_config(
            c,
            r.from_to(11, 14),
            Strategy::Constant(r.from_to(11, 14).min(11)),
            1,
        );
        true
    }),
    ("config_rows_limit", |c, r| {
        let queries = *r.pick(&[0, 1025, 65535]);
        other_config(c, 12, Strategy::Constant(1), queries);
        true
    }),
];

/// Modulus and degree.
fn tower(case: &Case) -> (u32, usize) {
    (case.modulus, case.degree)
}

/// Another element: one coefficient differs.
fn change(modulus: u32, degree: usize, element: &mut El, rng: &mut Rng) {
    let coefficient = &mut element.0[rng.place(degree)];
    *coefficient = (*coefficient + 1 + rng.below(u64::from(modulus) - 1) as u32) % modulus;
}

fn change_commitment(commitment: &mut Commitment, rng: &mut Rng) {
    match commitment {
        Commitment::Digest(root) => root[rng.place(32)] ^= 1 << rng.place(8),
        Commitment::Shelf(number) => *number ^= 1,
    }
}

fn with<T>(list: &mut [T], rng: &mut Rng, f: impl FnOnce(&mut T, &mut Rng)) -> bool {
    if list.is_empty() {
        return false;
    }
    let place = rng.place(list.len());
    f(&mut list[place], rng);
    true
}

fn drop_one<T>(list: &mut Vec<T>, rng: &mut Rng) -> bool {
    if list.is_empty() {
        return false;
    }
    list.remove(rng.place(list.len()));
    true
}

/// One of the items once more, somewhere.
fn add_one<T: Clone>(list: &mut Vec<T>, rng: &mut Rng) -> bool {
    if list.is_empty() {
        return false;
    }
    let again = list[rng.place(list.len())].clone();
    list.insert(rng.place(list.len() + 1), again);
    true
}

fn clear<T>(list: &mut Vec<T>) -> bool {
    let any = !list.is_empty();
    list.clear();
    any
}

/// The first item goes to the end.
fn turn<T>(list: &mut [T]) -> bool {
    if list.len() < 2 {
        return false;
    }
    list.rotate_left(1);
    true
}

/// A number near by.
fn step(number: &mut u64, rng: &mut Rng) -> bool {
    *number = if *number > 0 && rng.one_in(2) {
        *number - 1
    } else {
        number.saturating_add(1 + u64::from(rng.one_in(4)))
    };
    true
}

fn sumchecks(proof: &mut Proof) -> Vec<&mut Sumcheck> {
    let mut all = vec![&mut proof.initial];
    all.extend(proof.rounds.iter_mut().map(|round| &mut round.sumcheck));
    all.extend(proof.final_sumcheck.as_mut());
    all
}

fn sumcheck<'a>(case: &'a mut Case, rng: &mut Rng) -> &'a mut Sumcheck {
    let mut all = sumchecks(&mut case.proof);
    let place = rng.place(all.len());
    all.swap_remove(place)
}

fn messages<'a>(case: &'a mut Case, rng: &mut Rng) -> &'a mut Vec<[El; 2]> {
    &mut sumcheck(case, rng).messages
}

/// The answers of some round; without rounds, a list of no account.
fn ood<'a>(case: &'a mut Case, rng: &mut Rng) -> &'a mut Vec<El> {
    let rounds = &mut case.proof.rounds;
    if rounds.is_empty() {
        return &mut case.proof.initial_ood;
    }
    let place = rng.place(rounds.len());
    &mut rounds[place].ood
}

fn opening<'a>(case: &'a mut Case, rng: &mut Rng) -> &'a mut Opening {
    let mut all: Vec<&mut Opening> = case
        .proof
        .rounds
        .iter_mut()
        .map(|round| &mut round.opening)
        .collect();
    all.push(&mut case.proof.final_opening);
    // A second damage may meet an opening without rows.
    all.sort_by_key(|o| o.count == 0 || o.elements.is_empty() || o.count > 4096);
    let place = rng.place(all.len());
    let whole = |o: &Opening| o.count > 0 && o.count <= 4096 && !o.elements.is_empty();
    let place = if whole(all[place]) { place } else { 0 };
    let chosen = all.swap_remove(place);
    if !whole(chosen) {
        chosen.count = 1;
        chosen.elements = vec![El::default()];
    }
    chosen
}

/// Elements and nodes of one row.
fn shape(opening: &Opening) -> (usize, usize) {
    let count = opening.count as usize;
    (opening.elements.len() / count, opening.paths.len() / count)
}

fn query_witness(case: &mut Case, phase: usize) -> &mut u32 {
    match case.proof.rounds.get_mut(phase) {
        Some(round) => &mut round.query_witness,
        None => &mut case.proof.final_query_witness,
    }
}

fn shelves(case: &mut Case) -> Option<&mut Vec<crate::case::Shelf>> {
    match &mut case.scheme {
        SchemeKind::Kept(all) if !all.is_empty() => Some(all),
        _ => None,
    }
}

fn empty_round(case: &Case) -> crate::case::RoundProof {
    crate::case::RoundProof {
        commitment: Some(case.first_commitment),
        ood: Vec::new(),
        query_witness: 0,
        opening: case.proof.final_opening.clone(),
        sumcheck: case.proof.initial.clone(),
    }
}

/// So many claims, each the first of them or one that is all zero.
fn many_claims(case: &mut Case, count: usize, rng: &mut Rng) -> bool {
    if case.config.num_variables > 4 || !rng.one_in(4) {
        return false;
    }
    let n = case.config.num_variables as usize;
    let claim = case.claims.first().cloned().unwrap_or(Claim {
        point: vec![El::default(); n],
        value: El::default(),
    });
    case.claims = vec![claim; count];
    true
}

/// Changes some numbers and sets those that follow from them, if the strategy still fits.
fn settled(case: &mut Case, change: impl FnOnce(&mut Config)) -> bool {
    let mut config = case.config.clone();
    change(&mut config);
    let n = config.num_variables;
    let rates = config.rounds.iter().map(|round| round.log_inv_rate);
    let greatest = rates.chain([n, config.starting_log_inv_rate]).max();
    let far = greatest > Some(30);
    let Some(schedule) = Some(n)
        .filter(|_| !far)
        .and_then(|n| schedule(&config.strategy, n))
    else {
        return false;
    };
    let rates = config.round_log_inv_rates.is_empty();
    config
        .rounds
        .resize_with(schedule.len() - 1, Default::default);
    settle(&mut config);
    config.round_log_inv_rates = if rates {
        Vec::new()
    } else {
        config
            .rounds
            .iter()
            .map(|round| round.log_inv_rate)
            .collect()
    };
    case.config = config;
    true
}

/// A configuration of other numbers altogether.
fn other_config(case: &mut Case, n: u64, strategy: Strategy, queries: u64) {
    let config = &mut case.config;
    config.num_variables = n;
    config.capacity = 16;
    config.strategy = strategy;
    config.starting_log_inv_rate = 0;
    let schedule = schedule(&config.strategy, n).expect("a strategy that fits");
    config.rounds = vec![Default::default(); schedule.len() - 1];
    for round in &mut config.rounds {
        round.num_queries = 1;
    }
    if let Some(first) = config.rounds.first_mut() {
        first.num_queries = queries;
    }
    settle(config);
    config.round_log_inv_rates = vec![0; config.rounds.len()];
}

/// A limited number of the configuration, with the most that it may be.
fn limited<'a>(c: &'a mut Config, rng: &mut Rng) -> (u64, &'a mut u64) {
    let mut all = vec![
        (16, &mut c.num_variables),
        (16, &mut c.capacity),
        (65_535, &mut c.starting_log_inv_rate),
        (2, &mut c.soundness),
        (65_535, &mut c.security_level),
        (65_535, &mut c.pow_budget),
        (65_535, &mut c.commitment_ood_samples),
        (30, &mut c.starting_folding_pow_bits),
        (65_535, &mut c.terminal_queries),
        (30, &mut c.terminal_pow_bits),
        (65_535, &mut c.final_sumcheck_rounds),
        (30, &mut c.final_folding_pow_bits),
    ];
    all.extend(c.round_log_inv_rates.iter_mut().map(|e| (65_535, e)));
    all.extend(c.schedule.iter_mut().map(|k| (65_535, k)));
    match &mut c.strategy {
        Strategy::Constant(f) => all.push((65_535, f)),
        Strategy::Second(f, g) => all.extend([(65_535, f), (65_535, g)]),
        Strategy::PerRound(list) => all.extend(list.iter_mut().map(|f| (65_535, f))),
    }
    for round in &mut c.rounds {
        all.extend([
            (30, &mut round.pow_bits),
            (30, &mut round.folding_pow_bits),
            (65_535, &mut round.num_queries),
            (16, &mut round.ood_samples),
            (65_535, &mut round.num_variables),
            (65_535, &mut round.folding_factor),
            (65_535, &mut round.log_inv_rate),
            (65_536, &mut round.domain_size),
            (65_535, &mut round.log_folded_domain_size),
        ]);
    }
    let place = rng.place(all.len());
    all.swap_remove(place)
}
