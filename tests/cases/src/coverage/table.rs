//! The counts as text.

use super::central_codes::{branch_name, CentralCodes};
use super::conditions::conditions;
use super::nominal_shifts::{NominalShifts, KINDS, MAGNITUDES};
use super::peripheral_codes::{PeripheralCodes, JUMPS, OF_CHANNELS};
use super::{stops_of, Coverage, STOPS};
use crate::case::{NAMES, REFUSALS};
use crate::peripheral::channel_state::WAITING;
use crate::peripheral::instruction::INDEXED;
use std::fmt;

impl fmt::Display for Coverage {
    fn fmt(&self, f: &mut fmt::Formatter) -> fmt::Result {
        self.write_numbers(f)?;
        self.write_stops(f)?;
        self.central.fmt(f)?;
        self.nominal_shifts.fmt(f)?;
        self.floating.fmt(f)?;
        self.peripheral.fmt(f)?;
        writeln!(f, "\nother conditions")?;
        for (count, (name, _)) in self.conditions.iter().zip(conditions()) {
            writeln!(f, "{count:>8}  {name}")?;
        }
        Ok(())
    }
}

impl Coverage {
    fn write_numbers(&self, f: &mut fmt::Formatter) -> fmt::Result {
        writeln!(
            f,
            "number given (0: carried out; blank: not given by that call; 16: the console's alone)"
        )?;
        write!(f, "{:15}", "")?;
        (0..16).try_for_each(|number| write!(f, "{number:>7}"))?;
        writeln!(f, "  two due")?;
        for (call, name) in NAMES.iter().enumerate() {
            write!(f, "{name:15}")?;
            for (number, &count) in self.numbers[call].iter().enumerate() {
                let can = number == 0 || REFUSALS[call].contains(&(number as u64));
                write_count(f, can, count)?;
            }
            writeln!(f, "{:>9}", self.lowest_first[call])?;
        }
        Ok(())
    }

    fn write_stops(&self, f: &mut fmt::Formatter) -> fmt::Result {
        write!(f, "\n{:15}", "stops")?;
        STOPS.iter().try_for_each(|stop| write!(f, "{stop:>7}"))?;
        writeln!(f)?;
        for (call, name) in NAMES.iter().enumerate() {
            let can = stops_of(call);
            if can.is_empty() {
                continue;
            }
            write!(f, "{name:15}")?;
            for (place, &count) in self.stops[call].iter().enumerate() {
                write_count(f, can.contains(&place), count)?;
            }
            writeln!(f)?;
        }
        Ok(())
    }
}

/// A count, or a blank where there can be none.
pub fn write_count(f: &mut fmt::Formatter, can: bool, count: u64) -> fmt::Result {
    if can || count > 0 {
        write!(f, "{count:>7}")
    } else {
        write!(f, "{:7}", "")
    }
}

impl fmt::Display for CentralCodes {
    fn fmt(&self, f: &mut fmt::Formatter) -> fmt::Result {
        write_codes(f, "central codes", &self.codes)?;
        writeln!(f, "{:>8}  01 with i not 0", self.unfit_return)?;
        writeln!(
            f,
            "{:>8}  01 with i not 0 in the last parcel",
            self.unfit_return_last
        )?;
        writeln!(f, "\nbranches first in their word: went to K, did not")?;
        for (branch, [went, stayed]) in self.branches.iter().enumerate() {
            let end = if branch % 4 == 3 { "\n" } else { "" };
            write!(f, "{:>6}{went:>7}{stayed:>7}{end}", branch_name(branch))?;
        }
        Ok(())
    }
}

impl fmt::Display for NominalShifts {
    fn fmt(&self, f: &mut fmt::Formatter) -> fmt::Result {
        write!(f, "\n{:28}", "22 and 23 by magnitude of Bj")?;
        MAGNITUDES
            .iter()
            .try_for_each(|magnitude| write!(f, "{magnitude:>7}"))?;
        writeln!(f)?;
        for (kind, counts) in KINDS.iter().zip(self.counts) {
            write!(f, "{kind:>28}")?;
            counts
                .iter()
                .try_for_each(|count| write!(f, "{count:>7}"))?;
            writeln!(f)?;
        }
        Ok(())
    }
}

impl fmt::Display for PeripheralCodes {
    fn fmt(&self, f: &mut fmt::Formatter) -> fmt::Result {
        write_codes(f, "peripheral codes", &self.codes)?;
        writeln!(f, "\nm + (d): below 7777, exactly 7777, carried round")?;
        write_counts(f, &INDEXED, &self.index_sums)?;
        writeln!(f, "\nperipheral jumps: jumped, did not")?;
        write_counts(f, &JUMPS, &self.jumps)?;
        writeln!(f, "\ncodes of channels: on 14, above 14")?;
        write_counts(f, &OF_CHANNELS, &self.past_channels)?;
        writeln!(f, "\nturns that waited")?;
        write_row(f, &WAITING, &self.waits)?;
        writeln!(f, "\nwaits in a run that another processor ended")?;
        write_row(f, &WAITING, &self.ended_waits)
    }
}

/// A few counts for each code, four codes a row.
fn write_counts<const N: usize>(
    f: &mut fmt::Formatter,
    codes: &[usize],
    counts: &[[u64; N]],
) -> fmt::Result {
    let rows = codes.chunks(4).zip(counts.chunks(4));
    for (codes, counts) in rows {
        for (code, counts) in codes.iter().zip(counts) {
            write!(f, "    {code:02o}")?;
            counts
                .iter()
                .try_for_each(|count| write!(f, "{count:>7}"))?;
        }
        writeln!(f)?;
    }
    Ok(())
}

/// A count for each code.
fn write_row(f: &mut fmt::Formatter, codes: &[usize], counts: &[u64]) -> fmt::Result {
    for (code, count) in codes.iter().zip(counts) {
        write!(f, "{code:>6o}{count:>7}")?;
    }
    writeln!(f)
}

/// Counts of 64 codes, a row for each first digit.
fn write_codes(f: &mut fmt::Formatter, name: &str, counts: &[u64; 64]) -> fmt::Result {
    write!(f, "\n{name:16}")?;
    (0..8).try_for_each(|digit| write!(f, "{digit:>7}"))?;
    writeln!(f)?;
    for (row, counts) in counts.chunks_exact(8).enumerate() {
        write!(f, "{row:>16}")?;
        counts
            .iter()
            .try_for_each(|count| write!(f, "{count:>7}"))?;
        writeln!(f)?;
    }
    Ok(())
}
