//! Stand-in for `p3-challenger`: what is observed and drawn, over two calls of a sponge.
//!
//! - A base element is a word modulo the modulus, an extension element its coefficients in
//!   turn, w bits a word modulo 2^w.
//! - An element is observed by one call, as four little-endian bytes for each coefficient.
//! - Grinding at b > 0 bits observes the witness and draws b bits, which must be 0; at 0 bits
//!   nothing happens.

use p3_field::ExtensionField;

use crate::fs::TranscriptField;

pub mod fs;

/// The two calls of a sponge, and a place to mark where a sumcheck begins.
pub trait ByteSponge {
    fn observe_bytes(&mut self, bytes: &[u8]);

    fn draw_word(&mut self) -> u32;

    /// A sumcheck begins here. It changes nothing; an oracle counts these marks to say in which
    /// phase a refusal fell, which the crate's own errors do not tell.
    fn mark_sumcheck(&mut self);
}

pub trait CanObserve<T>: ByteSponge {
    fn observe(&mut self, value: T);
}

pub trait CanSample<T>: ByteSponge {
    fn sample(&mut self) -> T;
}

pub trait CanSampleUniformBits<F>: ByteSponge {
    /// A word modulo 2^bits.
    fn sample_uniform_bits(&mut self, bits: usize) -> usize {
        draw_bits(self, bits)
    }
}

pub trait GrindingChallenger: ByteSponge {
    type Witness;

    /// Whether the witness clears.
    fn check_witness(&mut self, bits: usize, witness: Self::Witness) -> bool;
}

pub trait FieldChallenger<F>: CanObserve<F> + CanSample<F> {}

/// A word modulo 2^bits.
pub fn draw_bits<S: ByteSponge + ?Sized>(sponge: &mut S, bits: usize) -> usize {
    assert!(bits < 32, "a word has 32 bits");
    (sponge.draw_word() & ((1u32 << bits) - 1)) as usize
}

/// The coefficients, drawn in turn.
pub fn draw_element<F, EF, S>(sponge: &mut S) -> EF
where
    F: TranscriptField,
    EF: ExtensionField<F>,
    S: ByteSponge + ?Sized,
{
    let drawn: Vec<F> = (0..EF::DEGREE)
        .map(|_| F::from_word(sponge.draw_word()))
        .collect();
    EF::from_coefficients(&drawn)
}

/// One call with all the coefficients' bytes.
pub fn observe_element<F, EF, S>(sponge: &mut S, element: &EF)
where
    F: TranscriptField,
    EF: ExtensionField<F>,
    S: ByteSponge + ?Sized,
{
    let bytes: Vec<u8> = element
        .coefficients()
        .into_iter()
        .flat_map(TranscriptField::to_bytes)
        .collect();
    sponge.observe_bytes(&bytes);
}

/// Grinding: at 0 bits nothing is read.
pub fn clears<F, S>(sponge: &mut S, bits: usize, witness: F) -> bool
where
    F: TranscriptField,
    S: ByteSponge + ?Sized,
{
    if bits == 0 {
        return true;
    }
    sponge.observe_bytes(&witness.to_bytes());
    draw_bits(sponge, bits) == 0
}
