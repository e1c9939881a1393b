//! Counts of stops 7 and 8 of floating codes, and of an infinity less an infinity that does not stop.

use super::super::Seen;
use super::{Floating, AT_INDEFINITE, AT_INFINITE};
use crate::floating::Kind::{Finite, Indefinite, Infinite};
use crate::floating::{indefinite, Kind};
use crate::instruction::FLOATING;
use std::fmt;
use tozhenab::layout::{STOP, X};

/// A name and what it says of the operands and EM.
type Due = (&'static str, fn(&Floating) -> bool);

/// What is due. 24 has no Xj, so that it can meet the first two alone.
pub const DUE: [Due; 7] = [
    ("7 by Xk", |ran| ran.stops_by(7, [Finite, Infinite])),
    ("8 by Xk", |ran| ran.stops_by(8, [Finite, Indefinite])),
    ("7 by Xj", |ran| ran.stops_by(7, [Infinite, Finite])),
    ("8 by Xj", |ran| ran.stops_by(8, [Indefinite, Finite])),
    ("8 by 060000 and both kinds", |ran| {
        ran.has_both_kinds() && ran.has_bits(AT_INFINITE | AT_INDEFINITE)
    }),
    ("7 by 020000 and both kinds", |ran| {
        ran.has_both_kinds() && ran.has_bits(AT_INFINITE)
    }),
    ("none by 040000 and infinity less infinity", |ran| {
        ran.kinds() == [Infinite, Infinite]
            && ran.result() == indefinite(false, 0)
            && ran.has_bits(AT_INDEFINITE)
    }),
];

impl Floating {
    fn stops_by(&self, stop: u64, kinds: [Kind; 2]) -> bool {
        self.stop() == stop && self.kinds() == kinds
    }

    /// An infinite operand and an indefinite one.
    fn has_both_kinds(&self) -> bool {
        let kinds = self.kinds();
        kinds.contains(&Infinite) && kinds.contains(&Indefinite)
    }

    /// Whether EM has these of the two bits alone.
    fn has_bits(&self, bits: u64) -> bool {
        self.em & (AT_INFINITE | AT_INDEFINITE) == bits
    }

    /// Whether the turn ended with the stop, and left Xi, which is not what the result would be.
    fn ended(&self, seen: &Seen) -> bool {
        let (before, at) = (&seen.case.lent.record, X + self.i);
        let kept = seen.after.record[at] == before[at] && before[at] != self.result();
        kept && seen.after.record[STOP] == self.stop()
    }
}

/// Whether a code can meet what stands at a place in `DUE`.
pub fn can_meet(code: u64, place: usize) -> bool {
    code != 0o24 || place < 2
}

pub struct Stops {
    /// By place in `DUE` and in `FLOATING`.
    pub counts: [[u64; FLOATING.len()]; DUE.len()],
}

impl Stops {
    pub fn new() -> Stops {
        Stops {
            counts: [[0; FLOATING.len()]; DUE.len()],
        }
    }

    pub(super) fn count(&mut self, ran: &Floating, seen: &Seen) {
        let met = match ran.stop() {
            0 => ran.shows(seen),
            _ => ran.ended(seen),
        };
        let code = FLOATING.iter().position(|&code| code == ran.code as u64);
        if let Some(code) = code.filter(|_| met) {
            for (counts, (_, due)) in self.counts.iter_mut().zip(DUE) {
                counts[code] += u64::from(due(ran));
            }
        }
    }

    /// Each thing that is due by each code that can meet it, and its count.
    pub fn required(&self, see: &mut dyn FnMut(fmt::Arguments, u64)) {
        for (place, ((name, _), counts)) in DUE.iter().zip(self.counts).enumerate() {
            for (&code, count) in FLOATING.iter().zip(counts) {
                if can_meet(code, place) {
                    see(format_args!("{code:o}: stop {name}"), count);
                }
            }
        }
    }
}
