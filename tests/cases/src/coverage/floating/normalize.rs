//! Counts of 24.

use super::super::Seen;
use super::Floating;
use crate::floating::{exponent, is_negative, kind, normalized, size, Kind, LEAST};
use std::fmt;
use tozhenab::layout::B;

/// What is counted of Xk: by the count, where the exponent stays within the limits; by the exponent
/// that is left; special words with low bits; and j = 0 with a count.
pub const OPERANDS: [&str; 10] = [
    "count 0",
    "count 1",
    "2 to 46",
    "47",
    "48",
    "to -1023",
    "below",
    "infinite",
    "indefinite",
    "j = 0",
];

pub const SIGNS: [&str; 2] = ["24 of a positive word", "24 of a negative word"];

/// Of 24 that does not stop.
pub struct Normalize {
    /// By place in `SIGNS` and in `OPERANDS`.
    pub counts: [[u64; OPERANDS.len()]; SIGNS.len()],
}

/// The place in `OPERANDS` of a word by its kind and count.
fn operand(word: u64, count: u64, left: i64) -> Option<usize> {
    match kind(word) {
        Kind::Infinite => (size(word) != 0).then_some(7),
        Kind::Indefinite => (size(word) != 0).then_some(8),
        Kind::Finite if left < LEAST => Some(6),
        Kind::Finite => Some(match count {
            0 | 1 => count as usize,
            2..=46 => 2,
            47 => 3,
            _ => 4,
        }),
    }
}

impl Normalize {
    pub fn new() -> Normalize {
        Normalize {
            counts: [[0; OPERANDS.len()]; SIGNS.len()],
        }
    }

    /// Counts a 24 whose turn shows what it leaves in Bj too: another number than stood there.
    pub(super) fn count(&mut self, ran: &Floating, seen: &Seen) {
        let word = ran.x[1];
        let (_, count) = normalized(word);
        let left = exponent(word) - count as i64;
        let counts = &mut self.counts[usize::from(is_negative(word))];
        let at = B + ran.j;
        if ran.j == 0 {
            counts[9] += u64::from(count != 0);
        } else if seen.case.lent.record[at] != count && seen.after.record[at] == count {
            if let Some(place) = operand(word, count, left) {
                counts[place] += 1;
            }
            counts[5] += u64::from(kind(word) == Kind::Finite && left == LEAST);
        }
    }

    /// Each sign by each operand, and its count.
    pub fn required(&self, see: &mut dyn FnMut(fmt::Arguments, u64)) {
        for (sign, counts) in SIGNS.iter().zip(self.counts) {
            for (operand, count) in OPERANDS.iter().zip(counts) {
                see(format_args!("{sign}: {operand}"), count);
            }
        }
    }
}
