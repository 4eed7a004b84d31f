//! Ours: the modules of this directory that the crate publishes and verifying needs.

pub mod committer;
pub mod proof;
pub mod verifier;
