//! The two sponges, and the recorder that the crate is given in their place.

use p3_challenger::{
    ByteSponge, CanObserve, CanSample, CanSampleUniformBits, FieldChallenger, GrindingChallenger,
    clears, draw_element,
};
use p3_field::Residue;

use crate::case::{Call, Commitment, SpongeKind, hex};
use crate::hash::{Digest, hash};

/// A sponge of either kind.
#[derive(Clone, Debug, PartialEq, Eq)]
pub enum Sponge {
    /// 32 bytes h. Observe makes h = H(00 ‖ h ‖ bytes); draw makes h = H(01 ‖ h) and answers its
    /// first four bytes, little-endian.
    Archive(Digest),
    /// A number s. A byte v, or 256 at a draw, makes s = (s xor v)·6364136223846793005 + 1
    /// modulo 2^64; draw answers the upper 32 bits.
    Trial(u64),
}

impl Sponge {
    pub const fn new(kind: SpongeKind) -> Self {
        match kind {
            SpongeKind::Archive => Self::Archive([0; 32]),
            SpongeKind::Trial => Self::Trial(0),
        }
    }

    pub fn observe(&mut self, bytes: &[u8]) {
        match self {
            Self::Archive(h) => *h = hash(&[&[0], h.as_slice(), bytes].concat()),
            Self::Trial(s) => bytes
                .iter()
                .for_each(|&v| *s = trial_step(*s, u64::from(v))),
        }
    }

    pub fn draw(&mut self) -> u32 {
        match self {
            Self::Archive(h) => {
                *h = hash(&[&[1], h.as_slice()].concat());
                u32::from_le_bytes([h[0], h[1], h[2], h[3]])
            }
            Self::Trial(s) => {
                *s = trial_step(*s, 256);
                (*s >> 32) as u32
            }
        }
    }

    pub fn make(&mut self, calls: &[Call]) {
        for call in calls {
            match call {
                Call::Observe(bytes) => self.observe(bytes),
                Call::Draw => {
                    self.draw();
                }
            }
        }
    }

    /// The words after `sponge_after`.
    pub fn text(&self) -> String {
        match self {
            Self::Archive(h) => format!("archive {}", hex(h)),
            Self::Trial(s) => format!("trial {s}"),
        }
    }
}

const fn trial_step(s: u64, v: u64) -> u64 {
    (s ^ v)
        .wrapping_mul(6_364_136_223_846_793_005)
        .wrapping_add(1)
}

/// A sponge that keeps the calls made on it and counts the sumchecks begun.
#[derive(Clone, Debug)]
pub struct Recorder<const P: u32> {
    pub sponge: Sponge,
    pub calls: Vec<Call>,
    pub sumchecks: usize,
}

impl<const P: u32> Recorder<P> {
    pub const fn new(sponge: Sponge) -> Self {
        Self {
            sponge,
            calls: Vec::new(),
            sumchecks: 0,
        }
    }
}

impl<const P: u32> ByteSponge for Recorder<P> {
    fn observe_bytes(&mut self, bytes: &[u8]) {
        self.calls.push(Call::Observe(bytes.to_vec()));
        self.sponge.observe(bytes);
    }

    fn draw_word(&mut self) -> u32 {
        self.calls.push(Call::Draw);
        self.sponge.draw()
    }

    fn mark_sumcheck(&mut self) {
        self.sumchecks += 1;
    }
}

impl<const P: u32> CanObserve<Residue<P>> for Recorder<P> {
    fn observe(&mut self, value: Residue<P>) {
        self.observe_bytes(&value.value().to_le_bytes());
    }
}

/// A root is observed as its bytes, a shelf number as four, little-endian.
impl<const P: u32> CanObserve<Commitment> for Recorder<P> {
    fn observe(&mut self, value: Commitment) {
        match value {
            Commitment::Digest(root) => self.observe_bytes(&root),
            Commitment::Shelf(number) => self.observe_bytes(&number.to_le_bytes()),
        }
    }
}

impl<const P: u32> CanSample<Residue<P>> for Recorder<P> {
    fn sample(&mut self) -> Residue<P> {
        draw_element::<Residue<P>, Residue<P>, _>(self)
    }
}

impl<const P: u32> CanSampleUniformBits<Residue<P>> for Recorder<P> {}

impl<const P: u32> FieldChallenger<Residue<P>> for Recorder<P> {}

impl<const P: u32> GrindingChallenger for Recorder<P> {
    type Witness = Residue<P>;

    fn check_witness(&mut self, bits: usize, witness: Residue<P>) -> bool {
        clears(self, bits, witness)
    }
}
