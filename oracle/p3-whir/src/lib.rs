//! Nine files of p3-whir 0.8.0, byte for byte as published (see NOTICE), over stand-ins.
//!
//! Ours are this file, `given.rs`, `pcs/mod.rs`, `pcs/committer/mod.rs` and `transcript/zk.rs`.

#![allow(dead_code)]

extern crate alloc;

pub mod domain;
pub mod given;
pub mod parameters;
pub mod pcs;
pub mod transcript;

pub use parameters::{SecurityAssumption, WhirConfig};
