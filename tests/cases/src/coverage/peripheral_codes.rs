//! Counts of the peripheral codes that ran, and of what their index sums, jumps and channels were.

use super::Seen;
use crate::peripheral::channel_state::WAITING;
use crate::peripheral::instruction::INDEXED;
use std::fmt;
use tozhenab::layout::CHANNELS;

/// The codes that jump or do not.
pub const JUMPS: [usize; 8] = [0o04, 0o05, 0o06, 0o07, 0o64, 0o65, 0o66, 0o67];

/// The codes that name a channel, but for those that are left out.
pub const OF_CHANNELS: [usize; 10] = [0o64, 0o65, 0o66, 0o67, 0o70, 0o72, 0o74, 0o75, 0o76, 0o77];

/// The clock's channel.
const CLOCK: usize = CHANNELS;

pub struct PeripheralCodes {
    /// By code.
    pub codes: [u64; 64],
    /// By place in `INDEXED` and by `IndexSum`.
    pub index_sums: [[u64; 3]; INDEXED.len()],
    /// By place in `JUMPS`: jumped, or did not; 64 to 67 on channels 00 to 13.
    pub jumps: [[u64; 2]; JUMPS.len()],
    /// By place in `OF_CHANNELS`: on channel 14, or above.
    pub past_channels: [[u64; 2]; OF_CHANNELS.len()],
    /// By place in `WAITING`: turns that waited.
    pub waits: [u64; WAITING.len()],
    /// By place in `WAITING`: waits in a run that another processor ended.
    pub ended_waits: [u64; WAITING.len()],
}

impl PeripheralCodes {
    pub fn new() -> PeripheralCodes {
        PeripheralCodes {
            codes: [0; 64],
            index_sums: [[0; 3]; INDEXED.len()],
            jumps: [[0; 2]; JUMPS.len()],
            past_channels: [[0; 2]; OF_CHANNELS.len()],
            waits: [0; WAITING.len()],
            ended_waits: [0; WAITING.len()],
        }
    }

    /// Counts the code of one turn, or the wait with which a run began.
    pub fn count(&mut self, seen: &Seen) {
        self.count_turn(seen);
        if let Some(code) = seen.ended_wait() {
            add(&WAITING, code, |place| self.ended_waits[place] += 1);
        }
    }

    fn count_turn(&mut self, seen: &Seen) {
        let Some(ran) = seen.instruction() else {
            return;
        };
        let record = &seen.case.lent.record;
        self.codes[ran.code] += 1;
        if let Some(comes_to) = ran.index_sum() {
            add(&INDEXED, ran.code, |place| {
                self.index_sums[place][comes_to as usize] += 1;
            });
        }
        if let Some(jumps) = ran.jumps(record) {
            add(&JUMPS, ran.code, |place| {
                self.jumps[place][usize::from(!jumps)] += 1;
            });
        }
        match ran.channel(record) {
            Some(state) => add(&WAITING, ran.code, |place| {
                self.waits[place] += u64::from(!state.meets(ran.code));
            }),
            None if ran.d >= CLOCK => add(&OF_CHANNELS, ran.code, |place| {
                self.past_channels[place][usize::from(ran.d > CLOCK)] += 1;
            }),
            None => {}
        }
    }

    /// Each thing that has to be met, and its count.
    pub fn required(&self, see: &mut dyn FnMut(fmt::Arguments, u64)) {
        for (code, &count) in self.codes.iter().enumerate() {
            see(format_args!("peripheral code {code:02o}"), count);
        }
        for (code, [below, exactly, round]) in INDEXED.iter().zip(self.index_sums) {
            see(format_args!("m + (d) below 7777 of code {code:02o}"), below);
            see(
                format_args!("m + (d) exactly 7777 of code {code:02o}"),
                exactly,
            );
            see(
                format_args!("m + (d) carried round of code {code:02o}"),
                round,
            );
        }
        for (code, [jumped, stayed]) in JUMPS.iter().zip(self.jumps) {
            see(format_args!("a jump of peripheral code {code:02o}"), jumped);
            see(
                format_args!("no jump of peripheral code {code:02o}"),
                stayed,
            );
        }
        for (code, [clock, above]) in OF_CHANNELS.iter().zip(self.past_channels) {
            see(format_args!("code {code:o} on channel 14"), clock);
            see(format_args!("code {code:o} on a channel above 14"), above);
        }
        for (code, count) in WAITING.iter().zip(self.waits) {
            see(format_args!("wait of code {code:o}"), count);
        }
        for (code, count) in WAITING.iter().zip(self.ended_waits) {
            see(
                format_args!("wait of code {code:o} in a run, ended by another processor"),
                count,
            );
        }
    }
}

/// Adds at the place of a code in a list, where it is listed.
fn add(list: &[usize], code: usize, at: impl FnOnce(usize)) {
    if let Some(place) = list.iter().position(|&listed| listed == code) {
        at(place);
    }
}
