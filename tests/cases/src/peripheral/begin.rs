//! Instructions with which a run begins: an exchange, or a wait that another processor ends.

use super::channel_state::{ChannelState, WAITING};
use super::WORDS;
use crate::case::Lent;
use crate::central::write_package;
use crate::rng::Rng;
use tozhenab::layout::{self, ACTIVE, CHANNELS, FULL, PROCESSOR_A, PROCESSOR_P, PROCESSOR_STOP};

/// Has a processor run, and writes the word at its P.
fn write_first(lent: &mut Lent, processor: usize, code: usize, d: u64) {
    let at = layout::processor(processor);
    let p = lent.record[at + PROCESSOR_P] as usize;
    lent.record[at + PROCESSOR_STOP] = 0;
    lent.peripheral[WORDS * processor + p] = (code << 6) as u16 | d as u16;
}

/// The first processor begins with a 26 at a sound package.
pub fn write_exchange(rng: &mut Rng, lent: &mut Lent) {
    write_first(lent, 0, 0o26, rng.below(0o100));
    lent.record[layout::processor(0) + PROCESSOR_A] = write_package(rng, &mut lent.memory);
}

/// The first processor begins with a wait that the second ends. The others are stopped.
pub fn write_ended_wait(rng: &mut Rng, lent: &mut Lent) {
    let channel = rng.place(CHANNELS);
    let (waiting, other, state) = ended_wait(rng);
    let own = &mut lent.record[layout::channel(channel)..];
    own[ACTIVE] = state.active.into();
    own[FULL] = state.full.into();
    write_first(lent, 0, waiting, channel as u64);
    write_first(lent, 1, other, channel as u64);
    for n in 2..lent.peripheral.len() / WORDS {
        lent.record[layout::processor(n) + PROCESSOR_STOP] = rng.between(31, 36);
    }
}

/// A code that waits, one that ends the wait, and the channel's state before them.
fn ended_wait(rng: &mut Rng) -> (usize, usize, ChannelState) {
    loop {
        let (waiting, other) = (rng.pick(&WAITING), rng.pick(&WAITING));
        let state = ChannelState {
            active: rng.one_in(2),
            full: rng.one_in(2),
        };
        if state.wait_ended_by(waiting, other) {
            return (waiting, other, state);
        }
    }
}
