//! Counts of 24 and 30 to 33, where they stand first in their word.

use super::Seen;
use crate::floating::{kind, normalized, sum, Kind};
use crate::instruction::FLOATING;
use std::fmt;
use tozhenab::layout::{EM, X};

mod normalize;
mod stops;
mod sums;
mod table;

use normalize::Normalize;
use stops::Stops;
use sums::Sums;

/// The bits of EM with which an infinite and an indefinite operand stop.
const AT_INFINITE: u64 = 0o020000;
const AT_INDEFINITE: u64 = 0o040000;

/// A floating code at the beginning of a word, with its operands.
struct Floating {
    code: usize,
    i: usize,
    j: usize,
    em: u64,
    /// Xj and Xk; 24 reads Xk alone.
    x: [u64; 2],
}

impl Floating {
    /// The first instruction of a central turn, where it is a floating code.
    fn of(seen: &Seen) -> Option<Floating> {
        let word = seen.fetched()?;
        let digit = |place: u64| (word >> place & 7) as usize;
        let (code, i, j, k) = (word >> 54, digit(51), digit(48), digit(45));
        let record = &seen.case.lent.record;
        FLOATING.contains(&code).then_some(Floating {
            code: code as usize,
            i,
            j,
            em: record[EM],
            x: [record[X + j], record[X + k]],
        })
    }

    fn is_normalize(&self) -> bool {
        self.code == 0o24
    }

    /// The kinds of the operands.
    fn kinds(&self) -> [Kind; 2] {
        match self.x.map(kind) {
            [_, xk] if self.is_normalize() => [Kind::Finite, xk],
            both => both,
        }
    }

    /// The stop that its operands bring about, or 0.
    fn stop(&self) -> u64 {
        let kinds = self.kinds();
        if self.em & AT_INDEFINITE != 0 && kinds.contains(&Kind::Indefinite) {
            8
        } else if self.em & AT_INFINITE != 0 && kinds.contains(&Kind::Infinite) {
            7
        } else {
            0
        }
    }

    /// What Xi is to be without a stop.
    fn result(&self) -> u64 {
        if self.is_normalize() {
            normalized(self.x[1]).0
        } else {
            sum::result(self.code, self.x)
        }
    }

    /// Whether the turn shows a result: it did not stand in Xi before, and no later parcel has written
    /// over it.
    fn shows(&self, seen: &Seen) -> bool {
        let (at, result) = (X + self.i, self.result());
        seen.case.lent.record[at] != result && seen.after.record[at] == result
    }
}

pub struct FloatingCodes {
    sums: Sums,
    normalize: Normalize,
    stops: Stops,
}

impl FloatingCodes {
    pub fn new() -> FloatingCodes {
        FloatingCodes {
            sums: Sums::new(),
            normalize: Normalize::new(),
            stops: Stops::new(),
        }
    }

    /// Counts the floating code with which a turn began.
    pub fn count(&mut self, seen: &Seen) {
        let Some(ran) = Floating::of(seen) else {
            return;
        };
        self.stops.count(&ran, seen);
        if ran.stop() != 0 || !ran.shows(seen) {
            return;
        }
        if ran.is_normalize() {
            self.normalize.count(&ran, seen);
        } else {
            self.sums.count(&ran);
        }
    }

    /// Each thing that has to be met, and its count.
    pub fn required(&self, see: &mut dyn FnMut(fmt::Arguments, u64)) {
        self.sums.required(see);
        self.normalize.required(see);
        self.stops.required(see);
    }
}
