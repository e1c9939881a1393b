//! The counts as text.

use super::normalize::{Normalize, OPERANDS, SIGNS as SIGNS_24};
use super::stops::{can_meet, Stops, DUE};
use super::sums::{Sums, CODES, DISTANCES, EDGES, KINDS, SIGNS};
use super::FloatingCodes;
use crate::coverage::table::write_count;
use crate::instruction::FLOATING;
use std::fmt;

impl fmt::Display for FloatingCodes {
    fn fmt(&self, f: &mut fmt::Formatter) -> fmt::Result {
        self.sums.write_kinds(f)?;
        self.sums.write_distances(f)?;
        self.sums.write_edges(f)?;
        self.normalize.fmt(f)?;
        self.stops.fmt(f)
    }
}

/// Numbers or names in columns of this width, and the end of the line.
fn write_row<T: fmt::Display>(
    f: &mut fmt::Formatter,
    width: usize,
    row: impl IntoIterator<Item = T>,
) -> fmt::Result {
    row.into_iter()
        .try_for_each(|one| write!(f, "{one:>width$}"))?;
    writeln!(f)
}

impl Sums {
    fn write_kinds(&self, f: &mut fmt::Formatter) -> fmt::Result {
        writeln!(
            f,
            "\nXj by Xk: no special operand has low bits, then one has"
        )?;
        write!(f, "{:14}", "")?;
        write_row(f, 7, KINDS.iter().chain(&KINDS))?;
        for (code, kinds) in CODES.iter().zip(self.kinds) {
            for (kind, counts) in KINDS.iter().zip(kinds) {
                write!(f, "{code:>6o}{kind:>8}")?;
                let [plain, low] = [0, 1].map(|low| counts.map(|count| count[low]));
                write_row(f, 7, plain.into_iter().chain(low))?;
            }
        }
        Ok(())
    }

    fn write_distances(&self, f: &mut fmt::Formatter) -> fmt::Result {
        writeln!(
            f,
            "\nfinite Xj and Xk by sign: the exponent of Xj less that of Xk"
        )?;
        write!(f, "{:14}", "")?;
        write_row(f, 6, DISTANCES)?;
        for (code, distances) in CODES.iter().zip(self.distances) {
            for (signs, counts) in SIGNS.iter().zip(distances) {
                write!(f, "{code:>6o}{signs:>8}")?;
                write_row(f, 6, counts)?;
            }
        }
        Ok(())
    }

    fn write_edges(&self, f: &mut fmt::Formatter) -> fmt::Result {
        write!(f, "\n{:32}", "sums of finite words")?;
        write_row(f, 7, CODES.map(|code| format!("{code:o}")))?;
        for ((edge, _), counts) in EDGES.iter().zip(self.edges) {
            write!(f, "{edge:>32}")?;
            write_row(f, 7, counts)?;
        }
        Ok(())
    }
}

impl fmt::Display for Normalize {
    fn fmt(&self, f: &mut fmt::Formatter) -> fmt::Result {
        write!(f, "\n{:22}", "24")?;
        write_row(f, 11, OPERANDS)?;
        for (sign, counts) in SIGNS_24.iter().zip(self.counts) {
            write!(f, "{sign:>22}")?;
            write_row(f, 11, counts)?;
        }
        Ok(())
    }
}

impl fmt::Display for Stops {
    fn fmt(&self, f: &mut fmt::Formatter) -> fmt::Result {
        write!(f, "\n{:42}", "stops of floating codes")?;
        write_row(f, 7, FLOATING.map(|code| format!("{code:o}")))?;
        for (place, ((name, _), counts)) in DUE.iter().zip(self.counts).enumerate() {
            write!(f, "{name:>42}")?;
            for (&code, count) in FLOATING.iter().zip(counts) {
                write_count(f, can_meet(code, place), count)?;
            }
            writeln!(f)?;
        }
        Ok(())
    }
}
