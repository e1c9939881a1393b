//! The central processor.

use crate::case::Call;
use crate::coverage::Seen;
use std::ops::RangeInclusive;
use tozhenab::layout::{FL, P, RA, STOP};

impl Seen<'_> {
    /// A central turn that was carried out.
    pub fn is_central_turn(&self) -> bool {
        self.number == 0 && matches!(self.case.call, Call::CentralTurn)
    }

    /// The turns made and asked of a call of many turns.
    pub fn turns(&self) -> Option<(u64, u64)> {
        match self.case.call {
            Call::CentralTurns { turns } if self.number == 0 => Some((self.after.result[0], turns)),
            _ => None,
        }
    }

    /// The stop of the central record before the call and after it.
    pub fn stops(&self) -> (u64, u64) {
        (self.case.lent.record[STOP], self.after.record[STOP])
    }

    /// Whether the field of the central record ends where memory does.
    pub fn field_ends_with_memory(&self) -> bool {
        let lent = &self.case.lent;
        lent.record[RA] + lent.record[FL] == lent.memory.len() as u64
    }

    /// An exchange at a package that lies in the field that it names.
    pub fn exchanged_in_field(&self) -> bool {
        let record = &self.after.record;
        match self.case.call {
            Call::Exchange { address } if self.number == 0 => {
                record[RA] <= address && address < record[RA] + record[FL]
            }
            _ => false,
        }
    }

    /// The word that a central turn fetched.
    pub fn fetched(&self) -> Option<u64> {
        let record = &self.case.lent.record;
        let runs = self.is_central_turn() && record[STOP] == 0 && record[P] < record[FL];
        runs.then(|| self.case.lent.memory[(record[RA] + record[P]) as usize])
    }

    /// K less FL of a running central turn whose word begins with one of these nine-bit codes and
    /// j = 0. With j = 0 the address of 51 is K.
    pub fn direct(&self, codes: RangeInclusive<u64>) -> Option<i64> {
        let word = self.fetched()?;
        let (code, j, k) = (word >> 51, word >> 48 & 7, word >> 30 & 0o777777);
        (codes.contains(&code) && j == 0).then(|| k as i64 - self.case.lent.record[FL] as i64)
    }
}
