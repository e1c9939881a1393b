//! Counts of 22 and 23 by code, direction, sign of Xk and magnitude of Bj.

use super::Seen;
use crate::values::{ONES_18, ONES_60};
use std::fmt;
use tozhenab::layout::{B, X};

/// The magnitudes that are counted.
pub const MAGNITUDES: [&str; 6] = ["0", "63", "64", "65", "64 n", "377777"];

/// The code, the direction and the sign of Xk.
pub const KINDS: [&str; 8] = [
    "22 left of a positive word",
    "22 left of a negative word",
    "22 right of a positive word",
    "22 right of a negative word",
    "23 left of a positive word",
    "23 left of a negative word",
    "23 right of a positive word",
    "23 right of a negative word",
];

pub struct NominalShifts {
    /// By place in `KINDS` and in `MAGNITUDES`.
    pub counts: [[u64; MAGNITUDES.len()]; KINDS.len()],
}

/// 22 or 23 at the beginning of a word, with its operands.
struct Shift {
    code: u64,
    i: usize,
    left: bool,
    magnitude: u64,
    x: u64,
}

impl Shift {
    /// The first instruction of a central turn, where it is 22 or 23.
    fn of(seen: &Seen) -> Option<Shift> {
        let word = seen.fetched()?;
        let digit = |place: u64| (word >> place & 7) as usize;
        let (code, i, j, k) = (word >> 54, digit(51), digit(48), digit(45));
        let (b, x) = (seen.case.lent.record[B + j], seen.case.lent.record[X + k]);
        let negative = b > ONES_18 / 2;
        matches!(code, 0o22 | 0o23).then_some(Shift {
            code,
            i,
            left: (code == 0o22) != negative,
            magnitude: if negative { ONES_18 - b } else { b },
            x,
        })
    }

    fn is_negative(&self) -> bool {
        self.x > ONES_60 / 2
    }

    /// The place in `KINDS`.
    fn kind(&self) -> usize {
        let halves = [self.code == 0o23, !self.left, self.is_negative()];
        halves
            .into_iter()
            .fold(0, |place, second| 2 * place + usize::from(second))
    }

    /// The place in `MAGNITUDES`.
    fn magnitude(&self) -> Option<usize> {
        match self.magnitude {
            0 => Some(0),
            63 => Some(1),
            64 => Some(2),
            65 => Some(3),
            0o377777 => Some(5),
            other => other.is_multiple_of(64).then_some(4),
        }
    }

    fn result(&self) -> u64 {
        let (x, count) = (self.x, self.magnitude & 0o77);
        match self.left {
            true => (x << (count % 60) | x >> (60 - count % 60)) & ONES_60,
            false if self.magnitude > 63 => 0,
            false => ((x << 4) as i64 >> 4 >> count) as u64 & ONES_60,
        }
    }

    /// Whether the turn shows what became of Xk: it is not so small that one place to the right, by
    /// the low six bits of 65, leaves zero as well, and no later parcel has written over the result.
    fn shows(&self, seen: &Seen) -> bool {
        let size = self.x.min(ONES_60 - self.x);
        size > 1 && seen.after.record[X + self.i] == self.result()
    }
}

impl NominalShifts {
    pub fn new() -> NominalShifts {
        NominalShifts {
            counts: [[0; MAGNITUDES.len()]; KINDS.len()],
        }
    }

    /// Counts the shift with which a turn began.
    pub fn count(&mut self, seen: &Seen) {
        let Some(shift) = Shift::of(seen) else { return };
        if let Some(magnitude) = shift.magnitude().filter(|_| shift.shows(seen)) {
            self.counts[shift.kind()][magnitude] += 1;
        }
    }

    /// Each kind by each magnitude, and its count.
    pub fn required(&self, see: &mut dyn FnMut(fmt::Arguments, u64)) {
        for (kind, counts) in KINDS.iter().zip(self.counts) {
            for (magnitude, count) in MAGNITUDES.iter().zip(counts) {
                see(format_args!("{kind} by {magnitude}"), count);
            }
        }
    }
}
