//! Ours: an empty stand-in. The zero-knowledge transcript is not built.
