//! Cases of a run.

use super::begin::{write_ended_wait, write_exchange};
use super::write::{central_address, write_instruction};
use super::{machine_lent, processor_count, WORDS};
use crate::case::{Call, Case, Lent};
use crate::central::STOPS;
use crate::instruction::fill_loop;
use crate::rng::Rng;
use crate::values::result_slice;
use tozhenab::layout::{
    self, FL, P, PROCESSORS, PROCESSOR_A, PROCESSOR_P, PROCESSOR_STOP, RA, STOP,
};

/// A code that a program is likely to hold: few that stop.
fn usual_code(rng: &mut Rng) -> u64 {
    match rng.below(8) {
        0 => rng.below(0o100),
        1 => rng.pick(&[0o70, 0o72, 0o74, 0o75, 0o76, 0o77]),
        2 => rng.pick(&[0o60, 0o62, 0o26, 0o27]),
        _ => rng.below(0o60),
    }
}

/// Writes a short program at P of each processor; at times one that stops.
fn write_programs(rng: &mut Rng, lent: &mut Lent) {
    for (n, own) in lent.peripheral.chunks_exact_mut(WORDS).enumerate() {
        let at = layout::processor(n);
        let p = lent.record[at + PROCESSOR_P];
        let words = 2 + rng.below(20);
        for word in 0..words {
            let code = usual_code(rng);
            write_instruction(rng, own, p + word, code);
        }
        if rng.one_in(3) {
            let stop = p + rng.below(words);
            let code = rng.pick(&[0o61, 0o63, 0o71, 0o73]);
            write_instruction(rng, own, stop, code);
        }
        if rng.one_in(3) {
            lent.record[at + PROCESSOR_A] = central_address(rng, &mut lent.memory, 0o26);
        }
    }
}

/// Has the central processor run a loop in its field, where that is not too long to be filled.
fn write_central_loop(rng: &mut Rng, lent: &mut Lent) {
    let (ra, fl) = (lent.record[RA], lent.record[FL]);
    if (1..=256).contains(&fl) {
        fill_loop(rng, &mut lent.memory[ra as usize..(ra + fl) as usize]);
        lent.record[P] = rng.below(fl);
        lent.record[STOP] = 0;
    }
}

/// Stops every processor, or all but one.
fn stop_most(rng: &mut Rng, record: &mut [u64]) {
    record[STOP] = rng.pick(&STOPS);
    for n in 0..PROCESSORS {
        record[layout::processor(n) + PROCESSOR_STOP] = rng.between(31, 36);
    }
    if rng.one_in(2) {
        record[layout::processor(0) + PROCESSOR_STOP] = 0;
    }
}

/// A run of rounds.
pub fn run_case(rng: &mut Rng) -> Case {
    let count = processor_count(rng);
    let mut lent = machine_lent(rng, count);
    match rng.below(8) {
        0..=2 => write_central_loop(rng, &mut lent),
        // The central processor stops in its first turn.
        3 => lent.record[P] = lent.record[RA] + lent.record[FL],
        _ => {}
    }
    write_programs(rng, &mut lent);
    match rng.below(16) {
        0 => stop_most(rng, &mut lent.record),
        1 | 2 => write_exchange(rng, &mut lent),
        3..=7 if count > 1 => write_ended_wait(rng, &mut lent),
        _ => {}
    }
    let rounds = match rng.below(256) {
        0 => 65_535 - rng.below(2),
        1..=8 => rng.below(2000),
        9..=20 => 0,
        _ => 1 + rng.below(30),
    };
    let call = Call::Run { rounds };
    lent.result = result_slice(rng, call.result_length());
    Case {
        call,
        lent,
        faults: Vec::new(),
    }
}
