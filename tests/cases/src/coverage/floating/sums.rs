//! Counts of 30 to 33.

use super::Floating;
use crate::floating::sum::Sum;
use crate::floating::{addends, exponent, is_negative, kind, size, Kind, GREATEST, LEAST};
use crate::values::ONES_60;
use std::fmt;

pub const CODES: [usize; 4] = [0o30, 0o31, 0o32, 0o33];

/// The kinds of an operand; special ones by their top 12 bits.
pub const KINDS: [&str; 5] = ["finite", "3777", "4000", "1777", "6000"];

/// The exponent of Xj less that of Xk.
pub const DISTANCES: [&str; 17] = [
    "< -97", "-97", "-96", "-95", "-49", "-48", "-47", "-1", "0", "1", "47", "48", "49", "95",
    "96", "97", "> 97",
];

/// The signs of Xj and Xk.
pub const SIGNS: [&str; 4] = ["+ and +", "+ and -", "- and +", "- and -"];

/// Two finite addends, their sum, and the half of it that was given.
pub struct Added {
    addends: [u64; 2],
    sum: Sum,
    given: u64,
}

/// A name and what it says.
type Edge = (&'static str, fn(&Added) -> bool);

pub const EDGES: [Edge; 13] = [
    ("overflow", |s| s.sum.overflowed),
    ("a zero sum of unlike signs", Added::cancels),
    ("both minus zero", |s| {
        s.is_minus_zero() && s.addends.map(size) == [0, 0]
    }),
    ("both minus zero, one moved out", |s| {
        s.is_minus_zero() && s.addends.map(size) != [0, 0]
    }),
    ("upper over 1022, +", |s| s.is_over() && !s.sum.negative),
    ("upper over 1022, -", |s| s.is_over() && s.sum.negative),
    ("upper 1022", |s| {
        s.sum.exponents[0] == GREATEST && !s.sum.overflowed
    }),
    ("upper 1022 by overflow", |s| {
        s.sum.exponents[0] == GREATEST && s.sum.overflowed
    }),
    ("lower below -1023, +", |s| s.is_under() && !s.sum.negative),
    ("lower below -1023, -", |s| s.is_under() && s.sum.negative),
    ("lower -1023", |s| s.sum.exponents[1] == LEAST),
    ("upper -1023", |s| s.sum.exponents[0] == LEAST),
    ("all ones given", |s| s.given == ONES_60),
];

impl Added {
    /// Bits of both addends that make a zero.
    fn cancels(&self) -> bool {
        let [(a, size), (b, _)] = self.sum.aligned;
        a != b && size != 0 && self.sum.size == 0
    }

    fn is_minus_zero(&self) -> bool {
        self.sum.negative && self.sum.size == 0
    }

    fn is_over(&self) -> bool {
        self.sum.exponents[0] > GREATEST
    }

    /// The lower half is past its limit, though the sum has bits there.
    fn is_under(&self) -> bool {
        self.sum.exponents[1] < LEAST && self.sum.size as u64 != 0
    }
}

/// Of sums that do not stop.
pub struct Sums {
    /// By code, kind of Xj and of Xk: no special operand has low bits, or one has.
    pub kinds: [[[[u64; 2]; KINDS.len()]; KINDS.len()]; CODES.len()],
    /// Of finite operands, by code, signs and distance.
    pub distances: [[[u64; DISTANCES.len()]; SIGNS.len()]; CODES.len()],
    /// By code and place in `EDGES`.
    pub edges: [[u64; CODES.len()]; EDGES.len()],
}

/// The place in `KINDS`.
fn kind_place(word: u64) -> usize {
    match kind(word) {
        Kind::Finite => 0,
        Kind::Infinite => 1 + usize::from(is_negative(word)),
        Kind::Indefinite => 3 + usize::from(is_negative(word)),
    }
}

/// The place in `DISTANCES`.
fn distance_place(distance: i64) -> Option<usize> {
    const MIDDLE: usize = DISTANCES.len() / 2;
    let away = match distance.unsigned_abs() as usize {
        near @ (0 | 1) => near,
        half @ 47..=49 => half - 45,
        all @ 95..=97 => all - 90,
        98.. => 8,
        _ => return None,
    };
    Some(if distance < 0 {
        MIDDLE - away
    } else {
        MIDDLE + away
    })
}

impl Sums {
    pub fn new() -> Sums {
        Sums {
            kinds: [[[[0; 2]; KINDS.len()]; KINDS.len()]; CODES.len()],
            distances: [[[0; DISTANCES.len()]; SIGNS.len()]; CODES.len()],
            edges: [[0; CODES.len()]; EDGES.len()],
        }
    }

    pub(super) fn count(&mut self, ran: &Floating) {
        let code = ran.code - CODES[0];
        let [kj, kk] = ran.x.map(kind_place);
        let low = |&word: &u64| kind(word) != Kind::Finite && size(word) != 0;
        self.kinds[code][kj][kk][usize::from(ran.x.iter().any(low))] += 1;
        if [kj, kk] == [0, 0] {
            self.count_distance(code, ran.x);
            let addends = addends(ran.code, ran.x);
            let added = Added {
                addends,
                sum: Sum::of(addends),
                given: ran.result(),
            };
            for (counts, (_, holds)) in self.edges.iter_mut().zip(EDGES) {
                counts[code] += u64::from(holds(&added));
            }
        }
    }

    /// Counts operands of which the one with the smaller exponent has bits to move.
    fn count_distance(&mut self, code: usize, [xj, xk]: [u64; 2]) {
        let distance = exponent(xj) - exponent(xk);
        let smaller = if distance < 0 { xj } else { xk };
        let signs = 2 * usize::from(is_negative(xj)) + usize::from(is_negative(xk));
        if let Some(place) = distance_place(distance).filter(|_| size(smaller) != 0) {
            self.distances[code][signs][place] += 1;
        }
    }

    /// Each thing that has to be met, and its count.
    pub fn required(&self, see: &mut dyn FnMut(fmt::Arguments, u64)) {
        for (n, code) in CODES.iter().enumerate() {
            self.required_kinds(n, see);
            for (signs, counts) in SIGNS.iter().zip(self.distances[n]) {
                for (distance, count) in DISTANCES.iter().zip(counts) {
                    see(
                        format_args!("{code:o} of {signs}, exponents apart by {distance}"),
                        count,
                    );
                }
            }
            for ((edge, _), counts) in EDGES.iter().zip(self.edges) {
                see(format_args!("{code:o}: {edge}"), counts[n]);
            }
        }
    }

    /// Finite operands alone have no low bits of special ones.
    fn required_kinds(&self, n: usize, see: &mut dyn FnMut(fmt::Arguments, u64)) {
        let code = CODES[n];
        for (kj, row) in KINDS.iter().zip(self.kinds[n]) {
            for (kk, [plain, low]) in KINDS.iter().zip(row) {
                see(format_args!("{code:o} of {kj} and {kk}"), plain);
                if [*kj, *kk] != [KINDS[0]; 2] {
                    see(format_args!("{code:o} of {kj} and {kk}, low bits"), low);
                }
            }
        }
    }
}
