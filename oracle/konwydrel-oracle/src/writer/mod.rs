//! The honest writer, in plain Rust: from a table and points it makes claims, a first
//! commitment and a proof by the honest rule. It shares the hash and the sponges with the
//! oracle, and nothing else: numbers, separator, field, tables, rows and trees are its own.

pub mod numbers;
pub mod shelves;
pub mod tower;

use crate::case::{
    Case, Claim, Commitment, DomainKind, El, Opening, Order, Proof, RoundNumbers, RoundProof,
    RowKind, SchemeKind, Shelf, Sumcheck,
};
use crate::rng::Rng;
use crate::sponge::Sponge;
use numbers::{Phase, draw_groups, phases, separator};
use shelves::{Committed, commit};
use tower::Tower;

/// Where a writer departs from the honest rule; all that follows is then made to fit.
#[derive(Clone, Copy, Debug, PartialEq, Eq)]
pub enum Cheat {
    /// A claim has another value.
    FalseClaim,
    /// The first commitment is of the rows of another table.
    OtherFirst,
    /// A message is not the true one.
    Message,
    /// A folded table has one other value.
    TableNear,
    /// A folded table has other values everywhere.
    Table,
    /// An out-of-domain answer is another.
    Ood,
    /// A query witness does not clear.
    QueryPow,
    /// A sumcheck witness does not clear.
    FoldPow,
    /// A row is opened at another position, with its own path.
    OpenOther,
    /// The final polynomial has one other value.
    FinalNear,
    /// The final polynomial has other values everywhere.
    Final,
}

pub const CHEATS: [(&str, Cheat); 11] = [
    ("cheat_false_claim", Cheat::FalseClaim),
    ("cheat_other_first", Cheat::OtherFirst),
    ("cheat_message", Cheat::Message),
    ("cheat_table_near", Cheat::TableNear),
    ("cheat_table", Cheat::Table),
    ("cheat_ood", Cheat::Ood),
    ("cheat_query_pow", Cheat::QueryPow),
    ("cheat_fold_pow", Cheat::FoldPow),
    ("cheat_open_other", Cheat::OpenOther),
    ("cheat_final_near", Cheat::FinalNear),
    ("cheat_final", Cheat::Final),
];

/// What is written about: a case without claims, commitment and proof, a table of base elements
/// and the points of the claims.
#[derive(Clone, Debug)]
pub struct Draft {
    pub case: Case,
    pub table: Vec<u32>,
    pub points: Vec<Vec<El>>,
}

struct Writer<'a> {
    tower: Tower,
    case: &'a Case,
    sponge: Sponge,
    /// The table that is left, and the carried weight at its corners.
    table: Vec<El>,
    weight: Vec<El>,
    shelves: Option<Vec<Shelf>>,
    rng: Rng,
    cheat: Option<Cheat>,
    /// How many occasions of the cheat are let pass.
    passes: u64,
    stuck: bool,
}

/// Writes the proof from a sponge on which the history has been made; the case, and the sponge
/// as the writer leaves it. Nothing comes of it where no witness clears, or where there was no
/// occasion to cheat.
pub fn write(
    draft: &Draft,
    sponge: Sponge,
    cheat: Option<Cheat>,
    rng: &mut Rng,
) -> Option<(Case, Sponge)> {
    let case = &draft.case;
    let tower = Tower::new(case.modulus, case.degree);
    let table = draft
        .table
        .iter()
        .map(|&value| tower.embed(value))
        .collect();
    let passes = match cheat {
        None | Some(Cheat::FalseClaim | Cheat::OtherFirst) => 0,
        Some(_) => rng.below(4),
    };
    let mut writer = Writer {
        tower,
        case,
        sponge,
        table,
        weight: Vec::new(),
        shelves: matches!(case.scheme, SchemeKind::Kept(_)).then(Vec::new),
        rng: Rng::new(rng.word()),
        cheat,
        passes,
        stuck: false,
    };
    let claims = writer.claims(&draft.points);
    let (first_commitment, proof) = writer.proof(&claims);
    let mut written = case.clone();
    written.claims = claims;
    written.first_commitment = first_commitment;
    written.proof = proof;
    if let Some(shelves) = writer.shelves {
        written.scheme = SchemeKind::Kept(shelves);
    }
    (!writer.stuck && writer.cheat.is_none()).then_some((written, writer.sponge))
}

/// The table's value at a point: its first variable is bound at the first coordinate, and so on.
pub fn value_at(tower: &Tower, table: &[El], point: &[El]) -> El {
    let mut left = table.to_vec();
    for r in point {
        left = bind(tower, &left, r, Order::Prefix);
    }
    left[0]
}

/// The table with its first variable (Prefix) or last variable (Suffix) bound at r.
fn bind(tower: &Tower, table: &[El], r: &El, order: Order) -> Vec<El> {
    halves(table, order)
        .map(|(a, b)| tower.between(a, b, r))
        .collect()
}

/// The pairs of values that differ in the variable bound next.
fn halves(table: &[El], order: Order) -> impl Iterator<Item = (&El, &El)> {
    let half = table.len() / 2;
    (0..half).map(move |x| match order {
        Order::Prefix => (&table[x], &table[half + x]),
        Order::Suffix => (&table[2 * x], &table[2 * x + 1]),
    })
}

impl Writer<'_> {
    /// Whether the writer departs from the rule at this occasion.
    fn cheats(&mut self, cheat: Cheat) -> bool {
        if self.cheat != Some(cheat) {
            return false;
        }
        if self.passes > 0 {
            self.passes -= 1;
            return false;
        }
        self.cheat = None;
        true
    }

    /// An element that is not zero.
    fn nonzero(&mut self) -> El {
        let mut element = El::default();
        let place = self.rng.place(self.tower.degree);
        element.0[place] = 1 + self.rng.below(u64::from(self.tower.modulus()) - 1) as u32;
        element
    }

    fn other(&mut self, value: &El) -> El {
        let difference = self.nonzero();
        self.tower.add(value, &difference)
    }

    fn others(&mut self, values: &mut [El]) {
        for value in values {
            *value = self.other(value);
        }
    }

    fn one_other(&mut self, values: &mut [El]) {
        let place = self.rng.place(values.len());
        values[place] = self.other(&values[place]);
    }

    fn observe(&mut self, element: &El) {
        let bytes: Vec<u8> = element.0[..self.tower.degree]
            .iter()
            .flat_map(|coefficient| coefficient.to_le_bytes())
            .collect();
        self.sponge.observe(&bytes);
    }

    fn draw(&mut self) -> El {
        let mut element = El::default();
        for coefficient in &mut element.0[..self.tower.degree] {
            *coefficient = self.sponge.draw() % self.tower.modulus();
        }
        element
    }

    fn draw_bits(&mut self, bits: u64) -> usize {
        (u64::from(self.sponge.draw()) % (1 << bits)) as usize
    }

    /// The first witness that clears; of a cheat, the first that does not.
    fn grind(&mut self, bits: u64, cheat: Cheat) -> u32 {
        if bits == 0 {
            return 0;
        }
        let wanted = !self.cheats(cheat);
        for witness in 0..self.tower.modulus() {
            let mut sponge = self.sponge.clone();
            sponge.observe(&witness.to_le_bytes());
            if (u64::from(sponge.draw()) % (1 << bits) == 0) == wanted {
                self.sponge = sponge;
                return witness;
            }
        }
        self.stuck = true;
        0
    }

    fn claims(&mut self, points: &[Vec<El>]) -> Vec<Claim> {
        let mut claims: Vec<Claim> = points
            .iter()
            .map(|point| Claim {
                point: point.clone(),
                value: value_at(&self.tower, &self.table, point),
            })
            .collect();
        if !claims.is_empty() && self.cheats(Cheat::FalseClaim) {
            let place = self.rng.place(claims.len());
            claims[place].value = self.other(&claims[place].value);
        }
        claims
    }

    /// The base element that stands at a position of 2^log.
    fn position(&self, log: u64, index: usize) -> u32 {
        match &self.case.domain {
            DomainKind::Listed(list) => list[index],
            DomainKind::Subgroup => {
                let capacity = if self.tower.modulus() == 257 { 8 } else { 16 };
                // 3^(2^(capacity − log)·index) by the digits of the exponent.
                let mut exponent = (index as u64) << (capacity - log);
                let (mut power, mut square) = (1, 3);
                while exponent > 0 {
                    if exponent & 1 == 1 {
                        power = self.tower.base_mul(power, square);
                    }
                    square = self.tower.base_mul(square, square);
                    exponent >>= 1;
                }
                power
            }
        }
    }

    /// The rows of a table: at each position v, for each setting b of the variables bound next,
    /// the sum of v^x·g(b, x) under Prefix, of v^x·g(x, b) under Suffix.
    fn rows(&self, table: &[El], phase: &Phase) -> Vec<Vec<El>> {
        let width = 1usize << phase.fold;
        let rest = table.len() / width;
        (0..1usize << phase.positions)
            .map(|index| {
                let v = self.position(phase.positions, index);
                (0..width)
                    .map(|b| {
                        (0..rest).rev().fold(El::default(), |sum, x| {
                            let value = match self.case.order {
                                Order::Prefix => &table[b * rest + x],
                                Order::Suffix => &table[x * width + b],
                            };
                            self.tower.add(&self.tower.scale(v, &sum), value)
                        })
                    })
                    .collect()
            })
            .collect()
    }

    fn commit(&mut self, table: &[El], phase: &Phase, kind: RowKind) -> Committed {
        let rows = self.rows(table, phase);
        let tower = (self.tower.modulus(), self.tower.degree);
        commit(rows, kind, tower, self.shelves.as_mut(), &mut self.rng)
    }

    fn proof(&mut self, claims: &[Claim]) -> (Commitment, Proof) {
        let case = self.case;
        let config = &case.config;
        let phases = phases(config);
        let mut first = self.table.clone();
        if self.cheats(Cheat::OtherFirst) {
            let place = self.rng.place(first.len());
            let change = 1 + self.rng.below(u64::from(self.tower.modulus()) - 1) as u32;
            first[place] = self.tower.add(&first[place], &self.tower.embed(change));
        }
        let mut committed = self.commit(&first, &phases[0], RowKind::Base);
        let first_commitment = committed.commitment;
        for piece in separator(config, self.tower.degree, case.num_opening_claims) {
            self.sponge.observe(&piece);
        }
        self.weigh_claims(claims);
        let initial = self.sumcheck(phases[0].fold, config.starting_folding_pow_bits);
        let mut rounds = Vec::new();
        for (i, round) in config.rounds.iter().enumerate() {
            let (proof, next) = self.round(&committed, &phases[i], &phases[i + 1], round);
            rounds.push(proof);
            committed = next;
        }
        let mut final_poly = self.table.clone();
        if self.cheats(Cheat::FinalNear) {
            self.one_other(&mut final_poly);
        }
        if self.cheats(Cheat::Final) {
            self.others(&mut final_poly);
        }
        for value in &final_poly {
            self.observe(value);
        }
        let last = &phases[phases.len() - 1];
        let (final_query_witness, _, final_opening) = self.queried(&committed, last);
        let due = config.final_sumcheck_rounds;
        let final_sumcheck = (due > 0).then(|| self.sumcheck(due, config.final_folding_pow_bits));
        let proof = Proof {
            initial_ood: Vec::new(),
            initial,
            rounds,
            final_poly: Some(final_poly),
            final_query_witness,
            final_opening,
            final_sumcheck,
        };
        (first_commitment, proof)
    }

    /// One round: the folded table's commitment and values, the openings of the one before, the
    /// batching and the sumcheck.
    fn round(
        &mut self,
        before: &Committed,
        phase: &Phase,
        next: &Phase,
        numbers: &RoundNumbers,
    ) -> (RoundProof, Committed) {
        self.spoil_table();
        let table = self.table.clone();
        let committed = self.commit(&table, next, RowKind::Extension);
        match committed.commitment {
            Commitment::Digest(root) => self.sponge.observe(&root),
            Commitment::Shelf(number) => self.sponge.observe(&number.to_le_bytes()),
        }
        let (ood, mut weights) = self.samples(numbers.ood_samples, next.variables);
        let (query_witness, positions, opening) = self.queried(before, phase);
        for &at in &positions {
            let v = self.position(phase.positions, at);
            weights.push(self.powers(v, next.variables));
        }
        let gamma = self.draw();
        let mut power = gamma;
        for weight in weights {
            self.weigh(&weight, &power);
            power = self.tower.mul(&power, &gamma);
        }
        let sumcheck = self.sumcheck(next.fold, numbers.folding_pow_bits);
        let proof = RoundProof {
            commitment: Some(committed.commitment),
            ood,
            query_witness,
            opening,
            sumcheck,
        };
        (proof, committed)
    }

    /// A cheat may change the folded table before it is committed to.
    fn spoil_table(&mut self) {
        let mut table = std::mem::take(&mut self.table);
        if self.cheats(Cheat::TableNear) {
            self.one_other(&mut table);
        }
        if self.cheats(Cheat::Table) {
            self.others(&mut table);
        }
        self.table = table;
    }

    /// Out-of-domain points with their answers, and the answers' weights.
    fn samples(&mut self, count: u64, variables: u64) -> (Vec<El>, Vec<Vec<El>>) {
        let mut answers = Vec::new();
        let mut weights = Vec::new();
        for _ in 0..count {
            let z = self.draw();
            let point = self.expand(&z, variables);
            let mut answer = value_at(&self.tower, &self.table, &point);
            if self.cheats(Cheat::Ood) {
                answer = self.other(&answer);
            }
            self.observe(&answer);
            answers.push(answer);
            weights.push(self.eq_everywhere(&point));
        }
        (answers, weights)
    }

    /// Grinds, draws a phase's positions and opens them.
    fn queried(&mut self, committed: &Committed, phase: &Phase) -> (u32, Vec<usize>, Opening) {
        let witness = self.grind(phase.query_bits, Cheat::QueryPow);
        let mut positions = Vec::new();
        for (bits, count) in draw_groups(phase, self.case.config.stratified) {
            for j in 0..count as usize {
                let low = self.draw_bits(bits);
                // Without strata there is one group, of the whole width, and j counts draws.
                let stratum = if bits < phase.positions { j << bits } else { 0 };
                positions.push(stratum + low);
            }
        }
        if positions.is_empty() {
            positions = (0..1 << phase.positions).collect();
        }
        let mut opened = positions.clone();
        if committed.rows.len() > 1 && self.cheats(Cheat::OpenOther) {
            let place = self.rng.place(opened.len());
            opened[place] = (opened[place] + 1) % committed.rows.len();
        }
        (witness, positions, committed.open(&opened))
    }

    /// The carried weight of the claims: the sum of α^j·eq(p_j, x).
    fn weigh_claims(&mut self, claims: &[Claim]) {
        let alpha = self.draw();
        self.weight = vec![El::default(); self.table.len()];
        let mut power = self.tower.one();
        for claim in claims {
            let weight = self.eq_everywhere(&claim.point);
            self.weigh(&weight, &power);
            power = self.tower.mul(&power, &alpha);
        }
    }

    fn weigh(&mut self, weight: &[El], factor: &El) {
        for (carried, weight) in self.weight.iter_mut().zip(weight) {
            *carried = self.tower.add(carried, &self.tower.mul(factor, weight));
        }
    }

    /// eq(p, x) at every corner x, by the digits of x.
    fn eq_everywhere(&self, point: &[El]) -> Vec<El> {
        let one = self.tower.one();
        (0..1usize << point.len())
            .map(|x| {
                point
                    .iter()
                    .rev()
                    .enumerate()
                    .fold(one, |product, (digit, p)| {
                        let factor = if x >> digit & 1 == 1 {
                            *p
                        } else {
                            self.tower.sub(&one, p)
                        };
                        self.tower.mul(&product, &factor)
                    })
            })
            .collect()
    }

    /// 1, v, v², …, one for each corner.
    fn powers(&self, v: u32, variables: u64) -> Vec<El> {
        let mut power = 1;
        (0..1usize << variables)
            .map(|_| {
                let now = power;
                power = self.tower.base_mul(power, v);
                self.tower.embed(now)
            })
            .collect()
    }

    /// (z^(2^(m−1)), …, z², z).
    fn expand(&self, z: &El, variables: u64) -> Vec<El> {
        let mut squares = vec![*z];
        for i in 1..variables as usize {
            squares.push(self.tower.mul(&squares[i - 1], &squares[i - 1]));
        }
        squares.truncate(variables as usize);
        squares.reverse();
        squares
    }

    /// True messages: h(X) is the sum of weight·table with the next variable X.
    fn sumcheck(&mut self, rounds: u64, bits: u64) -> Sumcheck {
        let order = self.case.order;
        let mut written = Sumcheck::default();
        for _ in 0..rounds {
            let mut h0 = El::default();
            let mut h2 = El::default();
            for ((w0, w1), (g0, g1)) in halves(&self.weight, order).zip(halves(&self.table, order))
            {
                let t = &self.tower;
                h0 = t.add(&h0, &t.mul(w0, g0));
                h2 = t.add(&h2, &t.mul(&t.sub(w1, w0), &t.sub(g1, g0)));
            }
            if self.cheats(Cheat::Message) {
                h0 = self.other(&h0);
            }
            self.observe(&h0);
            self.observe(&h2);
            written.messages.push([h0, h2]);
            if bits > 0 {
                let witness = self.grind(bits, Cheat::FoldPow);
                written.witnesses.push(witness);
            }
            let r = self.draw();
            self.table = bind(&self.tower, &self.table, &r, order);
            self.weight = bind(&self.tower, &self.weight, &r, order);
        }
        written
    }
}
