//! A case on both sides, and the comparison.

use crate::oracle;
use cases::{answer, archive, Case, Lent};

/// What each side gave, and what it left of the case that was made last.
#[derive(Default)]
pub struct Pair {
    numbers: [u64; 2],
    after: [Lent; 2],
}

const ARCHIVE: usize = 0;
const SECOND: usize = 1;

impl Pair {
    /// Makes the case on both sides and gives the second emulator's number.
    pub fn make(&mut self, case: &Case) -> u64 {
        let after = &mut self.after[ARCHIVE];
        after.copy_from(&case.lent);
        self.numbers[ARCHIVE] = archive::call(&case.call, after);
        self.make_second(case)
    }

    /// Makes the case on the second emulator alone, and gives its number.
    pub fn make_second(&mut self, case: &Case) -> u64 {
        let after = &mut self.after[SECOND];
        after.copy_from(&case.lent);
        self.numbers[SECOND] = oracle::call(&case.call, after);
        self.numbers[SECOND]
    }

    /// What the second emulator left.
    pub fn second(&self) -> &Lent {
        &self.after[SECOND]
    }

    /// Both answers as lines.
    pub fn answers(&self, index: u64, case: &Case) -> [String; 2] {
        [ARCHIVE, SECOND]
            .map(|side| answer::line(index, case, self.numbers[side], &self.after[side]))
    }

    /// What differs between the two sides, or what a refusal of the archive changed.
    pub fn difference(&self, case: &Case) -> Option<String> {
        let [ours, second] = self.numbers;
        if ours != second {
            return Some(format!(
                "{}: archive gives {ours}, second emulator {second}",
                case.call.name()
            ));
        }
        if self.after[ARCHIVE] != self.after[SECOND] {
            let parts = self.different_parts().join(", ");
            return Some(format!("{}: {parts} differ", case.call.name()));
        }
        if ours != 0 && !is_as_lent(case, &self.after[ARCHIVE]) {
            return Some(format!("{}: changed by a refusal", case.call.name()));
        }
        None
    }

    fn different_parts(&self) -> Vec<&'static str> {
        let [ours, second] = &self.after;
        let parts = [
            ("central memory", ours.memory != second.memory),
            ("peripheral memory", ours.peripheral != second.peripheral),
            ("record", ours.record != second.record),
            ("result", ours.result != second.result),
        ];
        let different = parts.iter().filter(|(_, differ)| *differ);
        different.map(|(name, _)| *name).collect()
    }
}

/// After a refusal all is as it was, but for counts in a result with room, which are 0.
fn is_as_lent(case: &Case, after: &Lent) -> bool {
    let lent = &case.lent;
    let needed = case.call.result_length();
    let written = if case.call.gives_counts() && lent.result.len() >= needed {
        needed
    } else {
        0
    };
    after.memory == lent.memory
        && after.peripheral == lent.peripheral
        && after.record == lent.record
        && after.result[written..] == lent.result[written..]
        && after.result[..written].iter().all(|&number| number == 0)
}
