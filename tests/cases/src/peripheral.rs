//! Peripheral memory, machine records, and cases of a peripheral turn and of a run.

use crate::case::Lent;
use crate::central::{central_record, memory, memory_length};
use crate::device::channel;
use crate::rng::Rng;
use crate::values::{value_12, value_18, EDGES_12, ONES_12};
use tozhenab::layout::{
    self, CHANNELS, CHANNEL_NUMBERS, CLOCK, MACHINE_NUMBERS, PROCESSORS, PROCESSOR_A, PROCESSOR_P,
    PROCESSOR_STOP,
};

mod begin;
pub mod channel_state;
mod edge;
pub mod instruction;
mod run;
mod turn;
mod write;

pub use run::run_case;
pub use turn::turn_case;

/// Words of one processor.
pub const WORDS: usize = 4096;

/// Words that instructions reach by d: 60 and 62 take five from there on.
const REACHED: usize = 0o104;

/// The number of processors: mostly one or two.
fn processor_count(rng: &mut Rng) -> usize {
    match rng.below(64) {
        0 => PROCESSORS,
        1..=3 => 3 + rng.place(7),
        4..=20 => 2,
        _ => 1,
    }
}

/// A machine record that is sound over a central memory of this length.
fn machine_record(rng: &mut Rng, length: usize) -> Vec<u64> {
    let mut record = central_record(rng, length);
    record.resize(MACHINE_NUMBERS, 0);
    record[CLOCK] = value_12(rng);
    for n in 0..CHANNELS {
        record[layout::channel(n)..][..CHANNEL_NUMBERS].copy_from_slice(&channel(rng));
    }
    for n in 0..PROCESSORS {
        let own = &mut record[layout::processor(n)..];
        own[PROCESSOR_P] = value_12(rng);
        own[PROCESSOR_A] = value_18(rng, length as u64);
        if rng.one_in(16) {
            own[PROCESSOR_STOP] = rng.between(31, 36);
        }
    }
    record
}

/// Peripheral memory: zero, but for the first words of each processor, which instructions reach by
/// d and of which some are edges, and some others; at times any words throughout.
fn peripheral_memory(rng: &mut Rng, count: usize) -> Vec<u16> {
    let mut memory = vec![0; WORDS * count];
    let everywhere = rng.one_in(16);
    for own in memory.chunks_exact_mut(WORDS) {
        let words = if everywhere { WORDS } else { REACHED };
        for pair in own[..words].chunks_exact_mut(2) {
            let bits = rng.number();
            pair[0] = (bits & ONES_12) as u16;
            pair[1] = (bits >> 12 & ONES_12) as u16;
        }
        for word in own[..REACHED].iter_mut() {
            if rng.one_in(8) {
                *word = rng.pick(&EDGES_12) as u16;
            }
        }
        for _ in 0..16 {
            own[rng.place(WORDS)] = value_12(rng) as u16;
        }
    }
    memory
}

/// Memories and a sound machine record, without a result.
fn machine_lent(rng: &mut Rng, count: usize) -> Lent {
    let length = memory_length(rng);
    Lent {
        memory: memory(rng, length),
        peripheral: peripheral_memory(rng, count),
        record: machine_record(rng, length),
        result: Vec::new(),
    }
}
