//! The Rust crate p3-whir, compiled unchanged, as the judge of Konwydrel's answers.

pub mod case;
pub mod compare;
pub mod damage;
pub mod differences;
pub mod domain;
pub mod drafts;
pub mod hash;
pub mod judge;
pub mod making;
pub mod rng;
pub mod rules;
pub mod sample;
pub mod scheme;
pub mod sponge;
pub mod vectors;
pub mod writer;
