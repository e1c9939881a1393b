//! Counts of the central codes that ran.

use super::Seen;
use crate::instruction::{is_left_out, is_long, FLOATING};
use std::fmt;
use tozhenab::layout::{EM, P};

/// 03 with each i, then 04 to 07.
pub const BRANCHES: usize = 12;

pub struct CentralCodes {
    /// By code; 01 with i = 0 alone.
    pub codes: [u64; 64],
    /// 01 with i other than 0.
    pub unfit_return: u64,
    /// The same in the last parcel, where stops 4 and 5 are both due.
    pub unfit_return_last: u64,
    /// By branch: P became K, or it did not. Counted where the branch is first in its word.
    pub branches: [[u64; 2]; BRANCHES],
}

impl CentralCodes {
    pub fn new() -> CentralCodes {
        CentralCodes {
            codes: [0; 64],
            unfit_return: 0,
            unfit_return_last: 0,
            branches: [[0; 2]; BRANCHES],
        }
    }

    /// Counts the codes of one turn that was carried out.
    pub fn count(&mut self, seen: &Seen) {
        if let Some(word) = seen.fetched() {
            let record = &seen.case.lent.record;
            self.count_branch(word, record[P], seen.after.record[P]);
            self.count_word(word, record[EM]);
        }
    }

    /// The parcels of a word, up to the first that can end the turn.
    fn count_word(&mut self, word: u64, em: u64) {
        let mut left = 60;
        while left > 0 {
            let parcel = word >> (left - 15);
            let code = parcel >> 9 & 0o77;
            if code == 0o01 && parcel >> 6 & 7 != 0 {
                self.unfit_return += 1;
                self.unfit_return_last += u64::from(left == 15);
                return;
            }
            if is_long(code) && left == 15 {
                return; // stop 5: the code does not run
            }
            self.codes[code as usize] += 1;
            let operand = (0o50..0o60).contains(&code) && em & 0o010000 != 0
                || FLOATING.contains(&code) && em & 0o060000 != 0;
            if code <= 0o07 || is_left_out(code) || operand {
                return;
            }
            left -= if is_long(code) { 30 } else { 15 };
        }
    }

    /// Whether a branch at the beginning of the word went to K. A K of P + 1 tells nothing.
    fn count_branch(&mut self, word: u64, before: u64, after: u64) {
        let (code, i, k) = (word >> 54, word >> 51 & 7, word >> 30 & 0o777777);
        let branch = match code {
            0o03 => i as usize,
            0o04..=0o07 => code as usize + 4,
            _ => return,
        };
        if k != before + 1 {
            self.branches[branch][usize::from(after != k)] += 1;
        }
    }

    /// Each code and branch that has to be met, and its count.
    pub fn required(&self, see: &mut dyn FnMut(fmt::Arguments, u64)) {
        for code in 0..64 {
            see(format_args!("central code {code:02o}"), self.codes[code]);
        }
        see(format_args!("01 with i not 0"), self.unfit_return);
        see(
            format_args!("01 with i not 0 in the last parcel"),
            self.unfit_return_last,
        );
        for (branch, [went, stayed]) in self.branches.iter().enumerate() {
            see(format_args!("{} to K", branch_name(branch)), *went);
            see(format_args!("{} not to K", branch_name(branch)), *stayed);
        }
    }
}

/// 03 with its i, or 04 to 07, in octal.
pub fn branch_name(branch: usize) -> &'static str {
    const NAMES: [&str; BRANCHES] = [
        "030", "031", "032", "033", "034", "035", "036", "037", "04", "05", "06", "07",
    ];
    NAMES[branch]
}
