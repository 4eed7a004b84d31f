//! A whole verification as text (docs/FORMAT.md says how it is laid out).

use std::fmt::Write;

pub use crate::hash::Digest;

/// An element of the extension field: its coefficients, then zeros.
#[derive(Clone, Copy, Debug, Default, PartialEq, Eq)]
pub struct El(pub [u32; 8]);

#[derive(Clone, Debug, PartialEq, Eq)]
pub enum DomainKind {
    Subgroup,
    Listed(Vec<u32>),
}

/// A matrix on a shelf, row by row.
#[derive(Clone, Debug, PartialEq, Eq)]
pub struct Shelf {
    pub height: usize,
    pub width: usize,
    pub values: Vec<u32>,
}

#[derive(Clone, Debug, PartialEq, Eq)]
pub enum SchemeKind {
    Merkle,
    Kept(Vec<Shelf>),
}

#[derive(Clone, Copy, Debug, PartialEq, Eq)]
pub enum SpongeKind {
    Archive,
    Trial,
}

/// A call made on a sponge.
#[derive(Clone, Debug, PartialEq, Eq)]
pub enum Call {
    Observe(Vec<u8>),
    Draw,
}

#[derive(Clone, Copy, Debug, PartialEq, Eq)]
pub enum Order {
    Prefix,
    Suffix,
}

#[derive(Clone, Debug, PartialEq, Eq)]
pub enum Strategy {
    Constant(u64),
    Second(u64, u64),
    PerRound(Vec<u64>),
}

/// The stored numbers of one round.
#[derive(Clone, Debug, Default, PartialEq, Eq)]
pub struct RoundNumbers {
    pub pow_bits: u64,
    pub folding_pow_bits: u64,
    pub num_queries: u64,
    pub ood_samples: u64,
    pub num_variables: u64,
    pub folding_factor: u64,
    pub log_inv_rate: u64,
    pub domain_size: u64,
    pub log_folded_domain_size: u64,
}

/// The stored numbers of a configuration.
#[derive(Clone, Debug, PartialEq, Eq)]
pub struct Config {
    pub num_variables: u64,
    pub capacity: u64,
    pub domain_id: Vec<u8>,
    pub stratified: bool,
    pub starting_log_inv_rate: u64,
    pub round_log_inv_rates: Vec<u64>,
    pub strategy: Strategy,
    pub soundness: u64,
    pub security_level: u64,
    pub pow_budget: u64,
    pub schedule: Vec<u64>,
    pub rounds: Vec<RoundNumbers>,
    pub commitment_ood_samples: u64,
    pub starting_folding_pow_bits: u64,
    pub terminal_queries: u64,
    pub terminal_pow_bits: u64,
    pub final_sumcheck_rounds: u64,
    pub final_folding_pow_bits: u64,
}

#[derive(Clone, Debug, PartialEq, Eq)]
pub struct Claim {
    pub point: Vec<El>,
    pub value: El,
}

#[derive(Clone, Copy, Debug, PartialEq, Eq)]
pub enum Commitment {
    Digest(Digest),
    Shelf(u32),
}

#[derive(Clone, Debug, Default, PartialEq, Eq)]
pub struct Sumcheck {
    pub messages: Vec<[El; 2]>,
    pub witnesses: Vec<u32>,
}

#[derive(Clone, Copy, Debug, PartialEq, Eq)]
pub enum RowKind {
    Base,
    Extension,
}

/// Opened rows, flat, with their count; a base row's numbers are the first coefficients.
#[derive(Clone, Debug, PartialEq, Eq)]
pub struct Opening {
    pub kind: RowKind,
    pub count: u64,
    pub elements: Vec<El>,
    pub paths: Vec<Digest>,
}

#[derive(Clone, Debug, PartialEq, Eq)]
pub struct RoundProof {
    pub commitment: Option<Commitment>,
    pub ood: Vec<El>,
    pub query_witness: u32,
    pub opening: Opening,
    pub sumcheck: Sumcheck,
}

#[derive(Clone, Debug, PartialEq, Eq)]
pub struct Proof {
    pub initial_ood: Vec<El>,
    pub initial: Sumcheck,
    pub rounds: Vec<RoundProof>,
    pub final_poly: Option<Vec<El>>,
    pub final_query_witness: u32,
    pub final_opening: Opening,
    pub final_sumcheck: Option<Sumcheck>,
}

/// What a case says of its answer.
#[derive(Clone, Debug, PartialEq, Eq)]
pub struct Stated {
    pub by: String,
    pub answer: String,
    pub sponge_after: String,
}

#[derive(Clone, Debug, PartialEq, Eq)]
pub struct Case {
    pub name: String,
    pub modulus: u32,
    pub degree: usize,
    pub domain: DomainKind,
    pub scheme: SchemeKind,
    pub sponge: SpongeKind,
    pub history: Vec<Call>,
    pub order: Order,
    pub config: Config,
    pub num_opening_claims: u64,
    pub claims: Vec<Claim>,
    pub first_commitment: Commitment,
    pub proof: Proof,
    pub stated: Option<Stated>,
}

/// Lower-case hex; the empty byte string is `-`.
pub fn hex(bytes: &[u8]) -> String {
    if bytes.is_empty() {
        return "-".into();
    }
    bytes.iter().fold(String::new(), |mut text, byte| {
        write!(text, "{byte:02x}").expect("a string takes all");
        text
    })
}

/// The bytes that `hex` writes so.
pub fn unhex(text: &str) -> Result<Vec<u8>, String> {
    if text == "-" {
        return Ok(Vec::new());
    }
    if text.len() % 2 == 1 || !text.is_ascii() {
        return Err(format!("not hex: {text}"));
    }
    (0..text.len() / 2)
        .map(|i| u8::from_str_radix(&text[2 * i..2 * i + 2], 16).map_err(|e| e.to_string()))
        .collect()
}

fn digest(text: &str) -> Result<Digest, String> {
    unhex(text)?
        .try_into()
        .map_err(|_| format!("not a digest: {text}"))
}

/// The strategy's words, as in a case's line.
pub fn strategy_text(strategy: &Strategy) -> String {
    match strategy {
        Strategy::Constant(f) => format!("constant {f}"),
        Strategy::Second(f, g) => format!("second {f} {g}"),
        Strategy::PerRound(list) => format!("per_round{}", list_text(list)),
    }
}

/// A list with its length first, each word after a blank.
pub fn list_text<T: ToString>(items: &[T]) -> String {
    let mut text = format!(" {}", items.len());
    for item in items {
        text.push(' ');
        text.push_str(&item.to_string());
    }
    text
}

impl El {
    /// The coefficients, each after a blank.
    pub fn text(&self, degree: usize) -> String {
        els_text(std::slice::from_ref(self), degree)
    }
}

/// Elements one after another, each number after a blank.
pub fn els_text(elements: &[El], degree: usize) -> String {
    let mut text = String::new();
    for element in elements {
        for coefficient in &element.0[..degree] {
            write!(text, " {coefficient}").expect("a string takes all");
        }
    }
    text
}

/// The lines of a configuration, `num_variables` to `final_folding_pow_bits`.
pub fn config_text(config: &Config) -> String {
    let c = config;
    let mut text = format!(
        "num_variables {}\ncapacity {}\ndomain_id{}\nstratified {}\nstarting_log_inv_rate {}\n\
         round_log_inv_rates{}\nfolding_factor {}\nsoundness {}\nsecurity_level {}\n\
         pow_budget {}\nschedule{}\nrounds {}\n",
        c.num_variables,
        c.capacity,
        list_text(&c.domain_id),
        u8::from(c.stratified),
        c.starting_log_inv_rate,
        list_text(&c.round_log_inv_rates),
        strategy_text(&c.strategy),
        c.soundness,
        c.security_level,
        c.pow_budget,
        list_text(&c.schedule),
        c.rounds.len(),
    );
    for (i, r) in c.rounds.iter().enumerate() {
        let _ = writeln!(
            text,
            "round {i} {} {} {} {} {} {} {} {} {}",
            r.pow_bits,
            r.folding_pow_bits,
            r.num_queries,
            r.ood_samples,
            r.num_variables,
            r.folding_factor,
            r.log_inv_rate,
            r.domain_size,
            r.log_folded_domain_size,
        );
    }
    let _ = write!(
        text,
        "commitment_ood_samples {}\nstarting_folding_pow_bits {}\nterminal {} {}\n\
         final_sumcheck_rounds {}\nfinal_folding_pow_bits {}\n",
        c.commitment_ood_samples,
        c.starting_folding_pow_bits,
        c.terminal_queries,
        c.terminal_pow_bits,
        c.final_sumcheck_rounds,
        c.final_folding_pow_bits,
    );
    text
}

fn commitment_text(commitment: &Commitment) -> String {
    match commitment {
        Commitment::Digest(root) => format!("digest {}", hex(root)),
        Commitment::Shelf(number) => format!("shelf {number}"),
    }
}

impl Case {
    /// The case as text.
    pub fn text(&self) -> String {
        let mut text = self.setting_text();
        text.push_str(&config_text(&self.config));
        text.push_str(&self.inputs_text());
        text.push_str(&self.proof_text());
        if let Some(stated) = &self.stated {
            let _ = write!(
                text,
                "by {}\nanswer {}\nsponge_after {}\n",
                stated.by, stated.answer, stated.sponge_after
            );
        }
        text.push_str("end\n");
        text
    }

    fn setting_text(&self) -> String {
        let mut text = format!(
            "case 1\nname {}\nmodulus {}\ndegree {}\n",
            self.name, self.modulus, self.degree
        );
        match &self.domain {
            DomainKind::Subgroup => text.push_str("domain subgroup\n"),
            DomainKind::Listed(list) => {
                let _ = writeln!(text, "domain listed{}", list_text(list));
            }
        }
        match &self.scheme {
            SchemeKind::Merkle => text.push_str("scheme merkle\n"),
            SchemeKind::Kept(shelves) => {
                let _ = writeln!(text, "scheme kept {}", shelves.len());
                for (i, s) in shelves.iter().enumerate() {
                    let _ = write!(text, "shelf {i} {} {}", s.height, s.width);
                    s.values.iter().for_each(|v| {
                        let _ = write!(text, " {v}");
                    });
                    text.push('\n');
                }
            }
        }
        text.push_str(match self.sponge {
            SpongeKind::Archive => "sponge archive\n",
            SpongeKind::Trial => "sponge trial\n",
        });
        let _ = writeln!(text, "history {}", self.history.len());
        for call in &self.history {
            let _ = match call {
                Call::Observe(bytes) => writeln!(text, "observe {}", hex(bytes)),
                Call::Draw => writeln!(text, "draw"),
            };
        }
        text.push_str(match self.order {
            Order::Prefix => "order prefix\n",
            Order::Suffix => "order suffix\n",
        });
        text
    }

    fn inputs_text(&self) -> String {
        let mut text = format!(
            "num_opening_claims {}\nclaims {}\n",
            self.num_opening_claims,
            self.claims.len()
        );
        for (i, claim) in self.claims.iter().enumerate() {
            let _ = writeln!(
                text,
                "claim {i} {}{}{}",
                claim.point.len(),
                els_text(&claim.point, self.degree),
                claim.value.text(self.degree)
            );
        }
        let _ = writeln!(
            text,
            "first_commitment {}",
            commitment_text(&self.first_commitment)
        );
        text
    }

    fn proof_text(&self) -> String {
        let d = self.degree;
        let proof = &self.proof;
        let rounds = proof.rounds.len();
        let mut text = format!(
            "initial_ood {}{}\n",
            proof.initial_ood.len(),
            els_text(&proof.initial_ood, d)
        );
        self.sumcheck_text(&mut text, 0, &proof.initial);
        let _ = writeln!(text, "proof_rounds {rounds}");
        for (i, round) in proof.rounds.iter().enumerate() {
            let commitment = round
                .commitment
                .as_ref()
                .map_or("missing".into(), commitment_text);
            let _ = writeln!(text, "commitment {i} {commitment}");
            let _ = writeln!(
                text,
                "ood {i} {}{}",
                round.ood.len(),
                els_text(&round.ood, d)
            );
            self.opening_text(&mut text, i, round.query_witness, &round.opening);
            self.sumcheck_text(&mut text, i + 1, &round.sumcheck);
        }
        match &proof.final_poly {
            None => text.push_str("final_poly missing\n"),
            Some(values) => {
                let _ = writeln!(text, "final_poly {}{}", values.len(), els_text(values, d));
            }
        }
        self.opening_text(
            &mut text,
            rounds,
            proof.final_query_witness,
            &proof.final_opening,
        );
        match &proof.final_sumcheck {
            None => text.push_str("final_sumcheck missing\n"),
            Some(sumcheck) => {
                text.push_str("final_sumcheck present\n");
                self.sumcheck_text(&mut text, rounds + 1, sumcheck);
            }
        }
        text
    }

    fn sumcheck_text(&self, text: &mut String, phase: usize, sumcheck: &Sumcheck) {
        let _ = write!(text, "messages {phase} {}", sumcheck.messages.len());
        for pair in &sumcheck.messages {
            text.push_str(&els_text(pair, self.degree));
        }
        let _ = writeln!(
            text,
            "\nwitnesses {phase}{}",
            list_text(&sumcheck.witnesses)
        );
    }

    fn opening_text(&self, text: &mut String, phase: usize, witness: u32, opening: &Opening) {
        let (kind, width) = match opening.kind {
            RowKind::Base => ("base", 1),
            RowKind::Extension => ("extension", self.degree),
        };
        let _ = writeln!(text, "query_witness {phase} {witness}");
        let _ = writeln!(
            text,
            "rows {phase} {kind} {} {}{}",
            opening.count,
            opening.elements.len(),
            els_text(&opening.elements, width)
        );
        let _ = write!(text, "paths {phase} {}", opening.paths.len());
        for node in &opening.paths {
            let _ = write!(text, " {}", hex(node));
        }
        text.push('\n');
    }

    /// The case that `text` writes so; any other text is refused.
    pub fn parse(text: &str) -> Result<Self, String> {
        let case = Lines::new(text).case()?;
        if case.text() == text {
            Ok(case)
        } else {
            Err("not in the fixed form".into())
        }
    }
}

/// The lines of a text, read in turn.
pub struct Lines<'a> {
    lines: std::iter::Peekable<std::str::Lines<'a>>,
    modulus: u32,
    degree: usize,
}

/// The words of one line after its key.
pub struct Words<'a> {
    key: &'a str,
    words: std::str::Split<'a, char>,
    modulus: u32,
    degree: usize,
}

type Read<T> = Result<T, String>;

impl<'a> Words<'a> {
    fn word(&mut self) -> Read<&'a str> {
        self.words
            .next()
            .ok_or_else(|| format!("{}: too few words", self.key))
    }

    fn number<T: std::str::FromStr>(&mut self) -> Read<T> {
        let word = self.word()?;
        word.parse()
            .map_err(|_| format!("{}: not a number here: {word}", self.key))
    }

    /// A number that a list must really have room for.
    fn count(&mut self) -> Read<usize> {
        let count = self.number()?;
        if count > 1 << 24 {
            return Err(format!("{}: a list too long", self.key));
        }
        Ok(count)
    }

    fn numbers<T: std::str::FromStr>(&mut self, count: usize) -> Read<Vec<T>> {
        (0..count).map(|_| self.number()).collect()
    }

    fn list<T: std::str::FromStr>(&mut self) -> Read<Vec<T>> {
        let count = self.count()?;
        self.numbers(count)
    }

    fn base(&mut self) -> Read<u32> {
        let value = self.number()?;
        if value < self.modulus {
            Ok(value)
        } else {
            Err(format!("{}: not below the modulus: {value}", self.key))
        }
    }

    fn bases(&mut self, count: usize) -> Read<Vec<u32>> {
        (0..count).map(|_| self.base()).collect()
    }

    fn element_of(&mut self, width: usize) -> Read<El> {
        let mut element = El::default();
        for coefficient in &mut element.0[..width] {
            *coefficient = self.base()?;
        }
        Ok(element)
    }

    fn element(&mut self) -> Read<El> {
        self.element_of(self.degree)
    }

    fn elements(&mut self, count: usize) -> Read<Vec<El>> {
        (0..count).map(|_| self.element()).collect()
    }

    fn done(mut self) -> Read<()> {
        self.words
            .next()
            .map_or(Ok(()), |_| Err(format!("{}: too many words", self.key)))
    }
}

impl<'a> Lines<'a> {
    pub fn new(text: &'a str) -> Self {
        Self {
            lines: text.lines().peekable(),
            modulus: 0,
            degree: 0,
        }
    }

    /// The words of the next line, which must have this key.
    pub fn line(&mut self, key: &'a str) -> Read<Words<'a>> {
        let line = self.lines.next().ok_or_else(|| format!("{key}: missing"))?;
        let mut words = line.split(' ');
        if words.next() == Some(key) {
            Ok(Words {
                key,
                words,
                modulus: self.modulus,
                degree: self.degree,
            })
        } else {
            Err(format!(
                "{key} expected, not: {}",
                line.chars().take(40).collect::<String>()
            ))
        }
    }

    /// One number on a line of its own.
    pub fn one<T: std::str::FromStr>(&mut self, key: &'a str) -> Read<T> {
        let mut words = self.line(key)?;
        let value = words.number()?;
        words.done()?;
        Ok(value)
    }

    pub fn tower(&mut self) -> Read<(u32, usize)> {
        self.modulus = self.one("modulus")?;
        self.degree = self.one("degree")?;
        if ![257, 65537].contains(&self.modulus) || ![1, 2, 4, 8].contains(&self.degree) {
            return Err("no such tower".into());
        }
        Ok((self.modulus, self.degree))
    }

    fn case(&mut self) -> Read<Case> {
        if self.one::<u32>("case")? != 1 {
            return Err("another version".into());
        }
        let name = self.line("name")?.word()?.to_string();
        let (modulus, degree) = self.tower()?;
        let domain = self.domain()?;
        let scheme = self.scheme()?;
        let sponge = match self.line("sponge")?.word()? {
            "archive" => SpongeKind::Archive,
            "trial" => SpongeKind::Trial,
            other => return Err(format!("no such sponge: {other}")),
        };
        let history = self.history()?;
        let order = match self.line("order")?.word()? {
            "prefix" => Order::Prefix,
            "suffix" => Order::Suffix,
            other => return Err(format!("no such order: {other}")),
        };
        let config = self.config()?;
        let num_opening_claims = self.one("num_opening_claims")?;
        let claims = (0..self.one::<usize>("claims")?)
            .map(|_| self.claim())
            .collect::<Read<_>>()?;
        let mut words = self.line("first_commitment")?;
        let first_commitment = commitment(&mut words, &scheme)?.ok_or("a first commitment")?;
        let proof = self.proof(&scheme)?;
        let stated = self.stated()?;
        self.line("end")?;
        Ok(Case {
            name,
            modulus,
            degree,
            domain,
            scheme,
            sponge,
            history,
            order,
            config,
            num_opening_claims,
            claims,
            first_commitment,
            proof,
            stated,
        })
    }

    fn domain(&mut self) -> Read<DomainKind> {
        let mut words = self.line("domain")?;
        match words.word()? {
            "subgroup" => Ok(DomainKind::Subgroup),
            "listed" => {
                let count = words.count()?;
                Ok(DomainKind::Listed(words.bases(count)?))
            }
            other => Err(format!("no such domain: {other}")),
        }
    }

    fn scheme(&mut self) -> Read<SchemeKind> {
        let mut words = self.line("scheme")?;
        match words.word()? {
            "merkle" => Ok(SchemeKind::Merkle),
            "kept" => {
                let count = words.count()?;
                (0..count)
                    .map(|_| self.shelf())
                    .collect::<Read<_>>()
                    .map(SchemeKind::Kept)
            }
            other => Err(format!("no such scheme: {other}")),
        }
    }

    fn shelf(&mut self) -> Read<Shelf> {
        let mut words = self.line("shelf")?;
        let _number: usize = words.number()?;
        let (height, width) = (words.count()?, words.count()?);
        let values = words.bases(height * width)?;
        Ok(Shelf {
            height,
            width,
            values,
        })
    }

    fn history(&mut self) -> Read<Vec<Call>> {
        let count: usize = self.one("history")?;
        (0..count)
            .map(|_| {
                if self.lines.peek() == Some(&"draw") {
                    self.lines.next();
                    Ok(Call::Draw)
                } else {
                    unhex(self.line("observe")?.word()?).map(Call::Observe)
                }
            })
            .collect()
    }

    pub fn config(&mut self) -> Read<Config> {
        let num_variables = self.one("num_variables")?;
        let capacity = self.one("capacity")?;
        let domain_id = self.line("domain_id")?.list()?;
        let stratified = self.one::<u8>("stratified")? == 1;
        let starting_log_inv_rate = self.one("starting_log_inv_rate")?;
        let round_log_inv_rates = self.line("round_log_inv_rates")?.list()?;
        let strategy = strategy(&mut self.line("folding_factor")?)?;
        let soundness = self.one("soundness")?;
        let security_level = self.one("security_level")?;
        let pow_budget = self.one("pow_budget")?;
        let schedule = self.line("schedule")?.list()?;
        let count: usize = self.one("rounds")?;
        let rounds = (0..count)
            .map(|_| self.round_numbers())
            .collect::<Read<_>>()?;
        let commitment_ood_samples = self.one("commitment_ood_samples")?;
        let starting_folding_pow_bits = self.one("starting_folding_pow_bits")?;
        let mut terminal = self.line("terminal")?;
        Ok(Config {
            num_variables,
            capacity,
            domain_id,
            stratified,
            starting_log_inv_rate,
            round_log_inv_rates,
            strategy,
            soundness,
            security_level,
            pow_budget,
            schedule,
            rounds,
            commitment_ood_samples,
            starting_folding_pow_bits,
            terminal_queries: terminal.number()?,
            terminal_pow_bits: terminal.number()?,
            final_sumcheck_rounds: self.one("final_sumcheck_rounds")?,
            final_folding_pow_bits: self.one("final_folding_pow_bits")?,
        })
    }

    fn round_numbers(&mut self) -> Read<RoundNumbers> {
        let mut words = self.line("round")?;
        let _number: usize = words.number()?;
        Ok(RoundNumbers {
            pow_bits: words.number()?,
            folding_pow_bits: words.number()?,
            num_queries: words.number()?,
            ood_samples: words.number()?,
            num_variables: words.number()?,
            folding_factor: words.number()?,
            log_inv_rate: words.number()?,
            domain_size: words.number()?,
            log_folded_domain_size: words.number()?,
        })
    }

    fn claim(&mut self) -> Read<Claim> {
        let mut words = self.line("claim")?;
        let _number: usize = words.number()?;
        let count = words.count()?;
        Ok(Claim {
            point: words.elements(count)?,
            value: words.element()?,
        })
    }

    fn sumcheck(&mut self) -> Read<Sumcheck> {
        let mut words = self.line("messages")?;
        let _phase: usize = words.number()?;
        let count = words.count()?;
        let messages = (0..count)
            .map(|_| Ok([words.element()?, words.element()?]))
            .collect::<Read<_>>()?;
        let mut words = self.line("witnesses")?;
        let _phase: usize = words.number()?;
        let count = words.count()?;
        let witnesses = words.bases(count)?;
        Ok(Sumcheck {
            messages,
            witnesses,
        })
    }

    fn opening(&mut self) -> Read<(u32, Opening)> {
        let mut words = self.line("query_witness")?;
        let _phase: usize = words.number()?;
        let witness = words.base()?;
        let mut words = self.line("rows")?;
        let _phase: usize = words.number()?;
        let (kind, width) = match words.word()? {
            "base" => (RowKind::Base, 1),
            "extension" => (RowKind::Extension, self.degree),
            other => return Err(format!("no such rows: {other}")),
        };
        let count = words.number()?;
        let elements = (0..words.count()?)
            .map(|_| words.element_of(width))
            .collect::<Read<_>>()?;
        let mut words = self.line("paths")?;
        let _phase: usize = words.number()?;
        let paths = (0..words.count()?)
            .map(|_| digest(words.word()?))
            .collect::<Read<_>>()?;
        let opening = Opening {
            kind,
            count,
            elements,
            paths,
        };
        Ok((witness, opening))
    }

    fn proof(&mut self, scheme: &SchemeKind) -> Read<Proof> {
        let mut words = self.line("initial_ood")?;
        let count = words.count()?;
        let initial_ood = words.elements(count)?;
        let initial = self.sumcheck()?;
        let rounds = (0..self.one::<usize>("proof_rounds")?)
            .map(|_| self.round_proof(scheme))
            .collect::<Read<_>>()?;
        let mut words = self.line("final_poly")?;
        let final_poly = match words.word()? {
            "missing" => None,
            count => {
                let count = count.parse().map_err(|_| "final_poly: not a number")?;
                Some(words.elements(count)?)
            }
        };
        let (final_query_witness, final_opening) = self.opening()?;
        let final_sumcheck = match self.line("final_sumcheck")?.word()? {
            "missing" => None,
            "present" => Some(self.sumcheck()?),
            other => return Err(format!("final_sumcheck: {other}")),
        };
        Ok(Proof {
            initial_ood,
            initial,
            rounds,
            final_poly,
            final_query_witness,
            final_opening,
            final_sumcheck,
        })
    }

    fn round_proof(&mut self, scheme: &SchemeKind) -> Read<RoundProof> {
        let mut words = self.line("commitment")?;
        let _round: usize = words.number()?;
        let commitment = commitment(&mut words, scheme)?;
        let mut words = self.line("ood")?;
        let _round: usize = words.number()?;
        let count = words.count()?;
        let ood = words.elements(count)?;
        let (query_witness, opening) = self.opening()?;
        let sumcheck = self.sumcheck()?;
        Ok(RoundProof {
            commitment,
            ood,
            query_witness,
            opening,
            sumcheck,
        })
    }

    fn stated(&mut self) -> Read<Option<Stated>> {
        if self.lines.peek() == Some(&"end") {
            return Ok(None);
        }
        let mut rest = |key: &'a str| -> Read<String> {
            Ok(self.line(key)?.words.collect::<Vec<_>>().join(" "))
        };
        Ok(Some(Stated {
            by: rest("by")?,
            answer: rest("answer")?,
            sponge_after: rest("sponge_after")?,
        }))
    }
}

/// A strategy's words.
pub fn strategy(words: &mut Words<'_>) -> Read<Strategy> {
    match words.word()? {
        "constant" => Ok(Strategy::Constant(words.number()?)),
        "second" => Ok(Strategy::Second(words.number()?, words.number()?)),
        "per_round" => Ok(Strategy::PerRound(words.list()?)),
        other => Err(format!("no such strategy: {other}")),
    }
}

/// A commitment of the scheme's own kind, or none.
fn commitment(words: &mut Words<'_>, scheme: &SchemeKind) -> Read<Option<Commitment>> {
    match (words.word()?, scheme) {
        ("missing", _) => Ok(None),
        ("digest", SchemeKind::Merkle) => Ok(Some(Commitment::Digest(digest(words.word()?)?))),
        ("shelf", SchemeKind::Kept(_)) => Ok(Some(Commitment::Shelf(words.number()?))),
        (other, _) => Err(format!("no such commitment here: {other}")),
    }
}
