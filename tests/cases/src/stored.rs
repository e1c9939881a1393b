//! The cases whose answers are stored.

/// The seed of the stored cases. Each stored line begins with the index of its case.
pub const SEED: u64 = 6600;

/// The file of their answers, a line for each case, as `answer::line` writes it.
pub const FILE: &str = concat!(env!("CARGO_MANIFEST_DIR"), "/expected.txt");
