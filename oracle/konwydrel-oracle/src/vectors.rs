//! Small facts, one a line: schedules, query draws, shapes with their separators, and the
//! basics of fields, tables, sponges and domains. Each line is read for its question and
//! written again with the crate's, or the stand-ins', answer.

use p3_challenger::{
    ByteSponge, CanObserve, CanSample, CanSampleUniformBits, FieldChallenger, GrindingChallenger,
};
use p3_field::{ExtensionField, Pair, Residue, Single, TwoAdicField};
use p3_multilinear_util::point::Point;
use p3_multilinear_util::poly::Poly;
use p3_multilinear_util::weights::{eq, select};
use p3_sumcheck::SumcheckData;
use p3_sumcheck::strategy::Basis;
use p3_whir::domain::{WhirDomain, WhirQueryPoint};
use p3_whir::transcript::{WhirShape, query_draws};

use crate::case::{Lines, SpongeKind, Strategy, config_text, hex, list_text, strategy_text, unhex};
use crate::domain::Subgroup;
use crate::hash::hash;
use crate::judge::shape;
use crate::rules::{folding_error, folding_factor};
use crate::sponge::Sponge;

/// The text with every answer given anew.
pub fn again(text: &str) -> Result<String, String> {
    if text.starts_with("vector ") {
        return shapes(text);
    }
    text.lines()
        .map(|line| line_again(line).map(|line| line + "\n"))
        .collect()
}

fn number(word: &str) -> Result<u64, String> {
    word.parse().map_err(|_| format!("not a number: {word}"))
}

fn numbers(words: &[&str]) -> Result<Vec<u64>, String> {
    words.iter().map(|word| number(word)).collect()
}

fn line_again(line: &str) -> Result<String, String> {
    let words: Vec<&str> = line.split(' ').collect();
    match words[0] {
        "constant" | "second" | "per_round" => schedule_again(&words),
        "blake2s" => Ok(format!(
            "blake2s {} {}",
            words[1],
            hex(&hash(&unhex(words[1])?))
        )),
        "sponge" => sponge_again(&words),
        "position" => position_again(&numbers(&words[1..])?),
        kind if kind.parse::<u64>().is_err() => {
            let given = numbers(&words[1..])?;
            fact_again(kind, &given)
        }
        _ => {
            let given = numbers(&words)?;
            let draws = query_draws(given[0] as usize, given[1] as usize);
            Ok(format!("{} {} {draws}", given[0], given[1]))
        }
    }
}

fn schedule_again(words: &[&str]) -> Result<String, String> {
    let at = words.iter().position(|&word| word == "n").ok_or("no n")?;
    let given = numbers(&words[1..at])?;
    let n = number(words[at + 1])?;
    let strategy = match words[0] {
        "constant" => Strategy::Constant(given[0]),
        "second" => Strategy::Second(given[0], given[1]),
        _ => Strategy::PerRound(given[1..].to_vec()),
    };
    let answer = match folding_factor(&strategy).compute_folding_schedule(n as usize) {
        Ok(schedule) => format!("ok{}", list_text(&schedule)),
        Err(error) => format!("err {}", folding_error(&error)),
    };
    Ok(format!("{} n {n} {answer}", strategy_text(&strategy)))
}

fn sponge_again(words: &[&str]) -> Result<String, String> {
    let kind = if words[1] == "archive" {
        SpongeKind::Archive
    } else {
        SpongeKind::Trial
    };
    let mut sponge = Sponge::new(kind);
    let mut text = format!("sponge {}", words[1]);
    let mut at = 2;
    while words[at] != "after" {
        if words[at] == "observe" {
            sponge.observe(&unhex(words[at + 1])?);
            text += &format!(" observe {}", words[at + 1]);
        } else {
            text += &format!(" draw {}", sponge.draw());
        }
        at += 2;
    }
    Ok(format!("{text} after {}", sponge.text()))
}

fn position_again(given: &[u64]) -> Result<String, String> {
    fn at<const P: u32>(log: u64, index: u64) -> u32 {
        type E<const P: u32> = Single<Residue<P>>;
        let point = <Subgroup as WhirDomain<Residue<P>, E<P>>>::query_point(
            &Subgroup,
            log as usize,
            0,
            index as usize,
        );
        match point {
            WhirQueryPoint::Univariate(v) => v.value(),
            WhirQueryPoint::Multilinear(_) => unreachable!("the crate's domain is univariate"),
        }
    }
    let value = match given[0] {
        257 => at::<257>(given[1], given[2]),
        _ => at::<65537>(given[1], given[2]),
    };
    Ok(format!(
        "position {} {} {} {value}",
        given[0], given[1], given[2]
    ))
}

fn fact_again(kind: &str, given: &[u64]) -> Result<String, String> {
    type B<const P: u32> = Residue<P>;
    let fact = match (given[0], given[1]) {
        (257, 1) => fact::<257, Single<B<257>>>,
        (257, 2) => fact::<257, Pair<B<257>>>,
        (257, 4) => fact::<257, Pair<Pair<B<257>>>>,
        (257, 8) => fact::<257, Pair<Pair<Pair<B<257>>>>>,
        (65537, 1) => fact::<65537, Single<B<65537>>>,
        (65537, 2) => fact::<65537, Pair<B<65537>>>,
        (65537, 4) => fact::<65537, Pair<Pair<B<65537>>>>,
        (65537, 8) => fact::<65537, Pair<Pair<Pair<B<65537>>>>>,
        _ => return Err("no such tower".into()),
    };
    let (asked, answer) = fact(kind, &given[2..])?;
    let mut text = format!("{kind} {} {}", given[0], given[1]);
    for number in given[2..2 + asked].iter().copied().chain(answer) {
        text += &format!(" {number}");
    }
    Ok(text)
}

/// How many numbers the question has, and the answer's.
fn fact<const P: u32, EF>(kind: &str, given: &[u64]) -> Result<(usize, Vec<u64>), String>
where
    EF: ExtensionField<Residue<P>> + TwoAdicField,
{
    let d = EF::DEGREE;
    let elements = |from: usize, count: usize| -> Vec<EF> {
        given[from..from + count * d]
            .chunks(d)
            .map(|c| {
                let c: Vec<_> = c.iter().map(|&v| Residue::new(v as u32)).collect();
                EF::from_coefficients(&c)
            })
            .collect()
    };
    let text = |answer: &[EF]| -> Vec<u64> {
        answer
            .iter()
            .flat_map(|element| element.coefficients())
            .map(|c| u64::from(c.value()))
            .collect()
    };
    let n = given[0] as usize;
    Ok(match kind {
        "mul" => {
            let e = elements(0, 2);
            (2 * d, text(&[e[0] * e[1]]))
        }
        "eq" => (
            1 + 2 * n * d,
            text(&[eq(&elements(1, n), &elements(1 + n * d, n))]),
        ),
        "select" => (
            1 + 2 * n * d,
            text(&[select(&elements(1, n), &elements(1 + n * d, n))]),
        ),
        "value" => {
            let table = Poly::new(elements(1, 1 << n));
            let point = Point::new(elements(1 + (d << n), n));
            (
                1 + (d << n) + n * d,
                text(&[table.eval_ext::<Residue<P>>(&point)]),
            )
        }
        "expand" => {
            let expanded = Point::expand_from_univariate(elements(1, 1)[0], n);
            (1 + d, text(expanded.as_slice()))
        }
        "round" => {
            let e = elements(0, 4);
            (4 * d, text(&[one_round::<P, EF>(e[0], e[1], e[2], e[3])]))
        }
        other => return Err(format!("no such fact: {other}")),
    })
}

/// A sumcheck round of the stand-in, on a sponge that draws r.
fn one_round<const P: u32, EF: ExtensionField<Residue<P>>>(c: EF, h0: EF, h2: EF, r: EF) -> EF {
    let words = r.coefficients().iter().map(|c| c.value()).collect();
    let mut claim = c;
    let data = SumcheckData {
        messages: vec![[h0, h2]],
        witnesses: Vec::<Residue<P>>::new(),
    };
    data.verify_rounds(
        &mut Scripted::<P>(words),
        &mut claim,
        1,
        0,
        Basis::Evaluation,
    )
    .expect("one message for one round");
    claim
}

/// A sponge that draws given words.
struct Scripted<const P: u32>(std::collections::VecDeque<u32>);

impl<const P: u32> ByteSponge for Scripted<P> {
    fn observe_bytes(&mut self, _bytes: &[u8]) {}

    fn draw_word(&mut self) -> u32 {
        self.0.pop_front().expect("a word")
    }

    fn mark_sumcheck(&mut self) {}
}

impl<const P: u32> CanObserve<Residue<P>> for Scripted<P> {
    fn observe(&mut self, _value: Residue<P>) {}
}

impl<const P: u32> CanSample<Residue<P>> for Scripted<P> {
    fn sample(&mut self) -> Residue<P> {
        Residue::new(self.draw_word())
    }
}

impl<const P: u32> CanSampleUniformBits<Residue<P>> for Scripted<P> {}

impl<const P: u32> FieldChallenger<Residue<P>> for Scripted<P> {}

impl<const P: u32> GrindingChallenger for Scripted<P> {
    type Witness = Residue<P>;

    fn check_witness(&mut self, _bits: usize, _witness: Residue<P>) -> bool {
        true
    }
}

fn shapes(text: &str) -> Result<String, String> {
    let mut again = String::new();
    for block in text.split_inclusive("\nend\n") {
        let mut lines = Lines::new(block);
        let number: u64 = lines.one("vector")?;
        let (modulus, degree) = lines.tower()?;
        let config = lines.config()?;
        let claims: u64 = lines.one("num_opening_claims")?;
        let (shape, pieces) = shape(modulus, degree, false, &config, claims);
        again += &format!("vector {number}\nmodulus {modulus}\ndegree {degree}\n");
        again += &config_text(&config);
        again += &format!("num_opening_claims {claims}\n");
        again += &shape_text(&shape);
        again += &format!("pieces {}\n", pieces.len());
        for piece in pieces {
            again += &format!("piece {}\n", hex(&piece));
        }
        again += "end\n";
    }
    Ok(again)
}

fn shape_text(s: &WhirShape) -> String {
    let mut text = format!(
        "shape_numbers {} {} {} {} {} {} {} {} {} {} {} {} {} {} {}\n",
        s.num_variables,
        s.commitment_ood_samples,
        s.num_opening_claims,
        s.commitment_row_width,
        s.initial_sumcheck.rounds,
        s.initial_sumcheck.pow_bits,
        s.final_poly_len,
        s.final_pow_bits,
        s.final_query_draws,
        s.final_index_bits,
        u8::from(s.stratified_queries),
        s.final_sumcheck.rounds,
        s.final_sumcheck.pow_bits,
        s.security_level,
        s.pow_budget,
    );
    text += &format!(
        "shape_more {} {}\n",
        s.starting_log_inv_rate, s.soundness_type as usize
    );
    text += &format!("final_depths{}\n", list_text(&s.final_query_summand_depths));
    text += &format!("shape_rounds {}\n", s.rounds.len());
    for (i, r) in s.rounds.iter().enumerate() {
        text += &format!(
            "shape_round {i} {} {} {} {} {} {} {} {}\n",
            r.ood_samples,
            r.query_pow_bits,
            r.query_draws,
            r.index_bits,
            u8::from(r.stratified_queries),
            r.sumcheck.rounds,
            r.sumcheck.pow_bits,
            r.log_inv_rate,
        );
        text += &format!("round_depths {i}{}\n", list_text(&r.query_summand_depths));
    }
    text
}
