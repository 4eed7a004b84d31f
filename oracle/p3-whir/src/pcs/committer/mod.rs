//! Ours: the one module of this directory that verifying needs.

pub mod reader;
