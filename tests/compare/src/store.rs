//! Writes the second emulator's answers to the stored cases.

use crate::is_complete;
use crate::pair::Pair;
use cases::coverage::{Coverage, Seen};
use cases::{answer, generate, stored};
use std::fs;

/// The first cases are stored, and of those that follow each that meets something not yet met often
/// enough.
const FIRST_STORED: u64 = 3000;
const ENOUGH: u64 = 20;
const MOST_TRIED: u64 = 1_000_000;

/// Writes the second emulator's answers to the stored cases.
pub fn store() -> bool {
    let mut coverage = Coverage::new();
    let mut pair = Pair::default();
    let mut lines = Vec::new();
    for index in 0..MOST_TRIED {
        let case = generate(stored::SEED, index);
        let number = pair.make_second(&case);
        let after = pair.second();
        let met = coverage.met(ENOUGH);
        coverage.count(&Seen {
            case: &case,
            number,
            after,
        });
        if index < FIRST_STORED || coverage.met(ENOUGH) > met {
            lines.push(answer::line(index, &case, number, after) + "\n");
        }
    }
    if let Err(error) = fs::write(stored::FILE, lines.concat()) {
        eprintln!("{}: {error}", stored::FILE);
        return false;
    }
    println!("{}: {} cases", stored::FILE, lines.len());
    is_complete(&coverage)
}
