//! Refusals 1 to 15.

use std::error::Error;
use std::fmt;

/// Why a call was not carried out. Number 16 of document 01 is the console program's, and no call
/// gives it.
#[derive(Clone, Copy, Debug, PartialEq, Eq, PartialOrd, Ord, Hash)]
pub enum Refusal {
    /// 1: central memory is not of 1 to 131,072 words.
    CentralLength = 1,
    /// 2: peripheral memory is not of 4,096 words for each of 1 to 10 processors, or there is no
    /// processor of the number asked for.
    PeripheralLength,
    /// 3: a word of central memory is over 60 bits.
    CentralWord,
    /// 4: a word of peripheral memory is over 4,095.
    PeripheralWord,
    /// 5: a value of a record is over its width, a stop is not listed, EM has a stray bit, B0 is
    /// not zero, RA + FL is past the end of memory, or a flat record has another length or a
    /// channel's flag over 1.
    RecordValue,
    /// 6: no job, over [`MOST_JOBS`](crate::limits::MOST_JOBS) jobs, over
    /// [`MOST_STINTS`](crate::limits::MOST_STINTS) stints, lists of stints of unequal length, or a
    /// result slice that is too short.
    ListLength,
    /// 7: a stint of a job that is not listed.
    UnlistedJob,
    /// 8: a stint over 65,535 turns, or a run over 65,535 rounds.
    TooManyTurns,
    /// 9: an exchange package past the end of memory.
    PackagePastEnd,
    /// 10: a bit of an exchange package that has to be zero is set.
    StrayBits,
    /// 11: RA + FL of an exchange package past the end of memory.
    FieldPastEnd,
    /// 12: two of the listed packages and fields share a word.
    SharedWord,
    /// 13: a put of a word over 4,095.
    DeviceWord,
    /// 14: a put on a channel that is inactive or full.
    PutUnmet,
    /// 15: a take from a channel that is inactive or empty.
    TakeUnmet,
}

impl Refusal {
    /// All of them, by rising number.
    pub const ALL: [Refusal; 15] = [
        Refusal::CentralLength,
        Refusal::PeripheralLength,
        Refusal::CentralWord,
        Refusal::PeripheralWord,
        Refusal::RecordValue,
        Refusal::ListLength,
        Refusal::UnlistedJob,
        Refusal::TooManyTurns,
        Refusal::PackagePastEnd,
        Refusal::StrayBits,
        Refusal::FieldPastEnd,
        Refusal::SharedWord,
        Refusal::DeviceWord,
        Refusal::PutUnmet,
        Refusal::TakeUnmet,
    ];

    /// The number that document 01 gives it.
    pub fn number(self) -> u64 {
        self as u64
    }

    /// The refusal of this number, if it is one of 1 to 15.
    pub fn from_number(number: u64) -> Option<Refusal> {
        Refusal::ALL.into_iter().find(|r| r.number() == number)
    }

    fn text(self) -> &'static str {
        match self {
            Refusal::CentralLength => "length of central memory",
            Refusal::PeripheralLength => "length of peripheral memory, or no such processor",
            Refusal::CentralWord => "central word over 60 bits",
            Refusal::PeripheralWord => "peripheral word over 4095",
            Refusal::RecordValue => "value of a record",
            Refusal::ListLength => "length of a list or of a result",
            Refusal::UnlistedJob => "stint of no listed job",
            Refusal::TooManyTurns => "over 65535 turns or rounds",
            Refusal::PackagePastEnd => "package past the end of memory",
            Refusal::StrayBits => "stray bits in a package",
            Refusal::FieldPastEnd => "field past the end of memory",
            Refusal::SharedWord => "packages or fields share a word",
            Refusal::DeviceWord => "word of a put over 4095",
            Refusal::PutUnmet => "put on a channel that is inactive or full",
            Refusal::TakeUnmet => "take from a channel that is inactive or empty",
        }
    }
}

impl fmt::Display for Refusal {
    fn fmt(&self, f: &mut fmt::Formatter) -> fmt::Result {
        write!(f, "refusal {}: {}", self.number(), self.text())
    }
}

impl Error for Refusal {}

#[cfg(test)]
mod tests {
    use super::*;

    #[test]
    fn numbers_are_1_to_15_in_order() {
        let numbers: Vec<u64> = Refusal::ALL.iter().map(|r| r.number()).collect();
        assert_eq!(numbers, (1..=15).collect::<Vec<u64>>());
    }

    #[test]
    fn a_number_gives_its_refusal_back() {
        for refusal in Refusal::ALL {
            assert_eq!(Refusal::from_number(refusal.number()), Some(refusal));
        }
        for number in [0, 16, 17, u64::MAX] {
            assert_eq!(Refusal::from_number(number), None);
        }
    }

    #[test]
    fn text_begins_with_the_number() {
        assert_eq!(
            Refusal::StrayBits.to_string(),
            "refusal 10: stray bits in a package"
        );
    }
}
