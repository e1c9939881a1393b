//! Records with named fields, and the slices of numbers that they stand for.

use crate::layout::{
    channel, processor, A, B, CENTRAL_NUMBERS, CHANNELS, CHANNEL_NUMBERS, CLOCK, EM, FL,
    MACHINE_NUMBERS, P, PROCESSORS, PROCESSOR_NUMBERS, RA, STOP, X,
};
use crate::refusal::Refusal;

/// The record of the central processor.
#[derive(Clone, Copy, Debug, Default, PartialEq, Eq)]
pub struct CentralRecord {
    /// P: the address of the next word, relative to RA; 18 bits.
    pub p: u64,
    /// RA: the first word of the field; 18 bits.
    pub ra: u64,
    /// FL: the length of the field; 18 bits.
    pub fl: u64,
    /// EM: the exit mode, of the bits 010000, 020000 and 040000, which bring about the stops 2, 7
    /// and 8.
    pub em: u64,
    /// A0 to A7, 18 bits each.
    pub a: [u64; 8],
    /// B0 to B7, 18 bits each; B0 is 0.
    pub b: [u64; 8],
    /// X0 to X7, 60 bits each.
    pub x: [u64; 8],
    /// The stop, 1 to 5, 7 or 8, or 0 while running.
    pub stop: u64,
}

impl From<CentralRecord> for [u64; CENTRAL_NUMBERS] {
    fn from(record: CentralRecord) -> Self {
        let mut flat = [0; CENTRAL_NUMBERS];
        flat[..A].copy_from_slice(&[record.p, record.ra, record.fl, record.em]);
        flat[A..B].copy_from_slice(&record.a);
        flat[B..X].copy_from_slice(&record.b);
        flat[X..STOP].copy_from_slice(&record.x);
        flat[STOP] = record.stop;
        flat
    }
}

impl From<[u64; CENTRAL_NUMBERS]> for CentralRecord {
    fn from(flat: [u64; CENTRAL_NUMBERS]) -> Self {
        let mut record = CentralRecord {
            p: flat[P],
            ra: flat[RA],
            fl: flat[FL],
            em: flat[EM],
            stop: flat[STOP],
            ..CentralRecord::default()
        };
        record.a.copy_from_slice(&flat[A..B]);
        record.b.copy_from_slice(&flat[B..X]);
        record.x.copy_from_slice(&flat[X..STOP]);
        record
    }
}

/// The record of a channel.
#[derive(Clone, Copy, Debug, Default, PartialEq, Eq)]
pub struct Channel {
    /// Whether the channel is active.
    pub active: bool,
    /// Whether it holds a word.
    pub full: bool,
    /// Whether the word is a function.
    pub mark: bool,
    /// The word, 12 bits.
    pub word: u64,
}

impl From<Channel> for [u64; CHANNEL_NUMBERS] {
    fn from(one: Channel) -> Self {
        [
            one.active.into(),
            one.full.into(),
            one.mark.into(),
            one.word,
        ]
    }
}

/// A flag over 1 is number 5, as in the calls.
impl TryFrom<[u64; CHANNEL_NUMBERS]> for Channel {
    type Error = Refusal;

    fn try_from(flat: [u64; CHANNEL_NUMBERS]) -> Result<Self, Refusal> {
        let flag = |number: u64| match number {
            0 => Ok(false),
            1 => Ok(true),
            _ => Err(Refusal::RecordValue),
        };
        Ok(Channel {
            active: flag(flat[0])?,
            full: flag(flat[1])?,
            mark: flag(flat[2])?,
            word: flat[3],
        })
    }
}

/// The record of a peripheral processor.
#[derive(Clone, Copy, Debug, Default, PartialEq, Eq)]
pub struct Processor {
    /// P: the address of the next instruction, 12 bits.
    pub p: u64,
    /// A: 18 bits.
    pub a: u64,
    /// The stop, 31 to 36, or 0 while running.
    pub stop: u64,
}

impl From<Processor> for [u64; PROCESSOR_NUMBERS] {
    fn from(one: Processor) -> Self {
        [one.p, one.a, one.stop]
    }
}

impl From<[u64; PROCESSOR_NUMBERS]> for Processor {
    fn from([p, a, stop]: [u64; PROCESSOR_NUMBERS]) -> Self {
        Processor { p, a, stop }
    }
}

/// The record of the whole machine.
#[derive(Clone, Copy, Debug, Default, PartialEq, Eq)]
pub struct MachineRecord {
    /// The central processor.
    pub central: CentralRecord,
    /// The clock, 12 bits.
    pub clock: u64,
    /// Channels 00 to 13 octal.
    pub channels: [Channel; CHANNELS],
    /// Ten peripheral processors; those that have no memory are not run.
    pub processors: [Processor; PROCESSORS],
}

impl From<MachineRecord> for [u64; MACHINE_NUMBERS] {
    fn from(record: MachineRecord) -> Self {
        let mut flat = [0; MACHINE_NUMBERS];
        flat[..CENTRAL_NUMBERS].copy_from_slice(&<[u64; CENTRAL_NUMBERS]>::from(record.central));
        flat[CLOCK] = record.clock;
        for (n, &one) in record.channels.iter().enumerate() {
            let part = &mut flat[channel(n)..channel(n + 1)];
            part.copy_from_slice(&<[u64; CHANNEL_NUMBERS]>::from(one));
        }
        for (n, &one) in record.processors.iter().enumerate() {
            let part = &mut flat[processor(n)..processor(n + 1)];
            part.copy_from_slice(&<[u64; PROCESSOR_NUMBERS]>::from(one));
        }
        flat
    }
}

/// A channel's flag over 1 is number 5, as in the calls.
impl TryFrom<[u64; MACHINE_NUMBERS]> for MachineRecord {
    type Error = Refusal;

    fn try_from(flat: [u64; MACHINE_NUMBERS]) -> Result<Self, Refusal> {
        let mut record = MachineRecord {
            central: CentralRecord::from(part_of(&flat, 0)),
            clock: flat[CLOCK],
            ..MachineRecord::default()
        };
        for (n, one) in record.channels.iter_mut().enumerate() {
            *one = Channel::try_from(part_of(&flat, channel(n)))?;
        }
        for (n, one) in record.processors.iter_mut().enumerate() {
            *one = Processor::from(part_of(&flat, processor(n)));
        }
        Ok(record)
    }
}

/// The `N` numbers of a machine record from `at` on.
fn part_of<const N: usize>(flat: &[u64; MACHINE_NUMBERS], at: usize) -> [u64; N] {
    let mut part = [0; N];
    part.copy_from_slice(&flat[at..at + N]);
    part
}

#[cfg(test)]
mod tests {
    use super::*;

    /// A flat record whose numbers all differ, but for the flags of the channels.
    fn machine_numbers() -> [u64; MACHINE_NUMBERS] {
        let mut flat = [0; MACHINE_NUMBERS];
        for (n, number) in flat.iter_mut().enumerate() {
            *number = n as u64;
        }
        for n in 0..CHANNELS {
            for (flag, number) in flat[channel(n)..][..3].iter_mut().enumerate() {
                *number = ((n >> flag) & 1) as u64;
            }
        }
        flat
    }

    #[test]
    fn a_central_record_has_its_numbers_in_order() {
        let mut flat = [0; CENTRAL_NUMBERS];
        for (n, number) in flat.iter_mut().enumerate() {
            *number = n as u64;
        }
        let record = CentralRecord::from(flat);
        assert_eq!([record.p, record.ra, record.fl, record.em], [0, 1, 2, 3]);
        assert_eq!(record.a, [4, 5, 6, 7, 8, 9, 10, 11]);
        assert_eq!(record.b, [12, 13, 14, 15, 16, 17, 18, 19]);
        assert_eq!(record.x, [20, 21, 22, 23, 24, 25, 26, 27]);
        assert_eq!(record.stop, 28);
        assert_eq!(<[u64; CENTRAL_NUMBERS]>::from(record), flat);
    }

    #[test]
    fn a_channel_has_its_numbers_in_order() {
        for flags in 0..8u64 {
            let flat = [flags & 1, flags >> 1 & 1, flags >> 2, 0o1234];
            let channel = Channel::try_from(flat).unwrap();
            assert_eq!(channel.active, flat[0] == 1);
            assert_eq!(channel.full, flat[1] == 1);
            assert_eq!(channel.mark, flat[2] == 1);
            assert_eq!(channel.word, 0o1234);
            assert_eq!(<[u64; CHANNEL_NUMBERS]>::from(channel), flat);
        }
    }

    #[test]
    fn a_flag_over_1_is_no_channel() {
        for n in 0..3 {
            for flag in [2, 3, 256, 1 << 32, u64::MAX] {
                let mut flat = [0; CHANNEL_NUMBERS];
                flat[n] = flag;
                assert_eq!(Channel::try_from(flat), Err(Refusal::RecordValue));
            }
        }
    }

    #[test]
    fn a_machine_record_has_its_numbers_in_order() {
        let flat = machine_numbers();
        let record = MachineRecord::try_from(flat).unwrap();
        assert_eq!(record.central.p, 0);
        assert_eq!(record.central.stop, 28);
        assert_eq!(record.clock, 29);
        for (n, channel) in record.channels.iter().enumerate() {
            assert_eq!(channel.word, 33 + 4 * n as u64);
        }
        for (n, processor) in record.processors.iter().enumerate() {
            let first = 78 + 3 * n as u64;
            assert_eq!(
                [processor.p, processor.a, processor.stop],
                [first, first + 1, first + 2]
            );
        }
        assert_eq!(<[u64; MACHINE_NUMBERS]>::from(record), flat);
    }

    #[test]
    fn a_flag_over_1_is_no_machine_record() {
        for n in 0..CHANNELS {
            for flag in 0..3 {
                let mut flat = machine_numbers();
                flat[channel(n) + flag] = 2;
                assert_eq!(MachineRecord::try_from(flat), Err(Refusal::RecordValue));
            }
        }
    }
}
