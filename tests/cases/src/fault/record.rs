//! What brings about number 5: a record of another length, or a value that is not allowed.

use crate::case::Case;
use crate::rng::Rng;
use crate::values::{over, ONES_12, ONES_18, ONES_60};
use tozhenab::layout::{
    self, A, B, CENTRAL_NUMBERS, CHANNELS, CHANNEL_NUMBERS, CLOCK, EM, FL, MACHINE_NUMBERS, P,
    PROCESSORS, PROCESSOR_A, PROCESSOR_P, PROCESSOR_STOP, RA, STOP, WORD, X,
};

pub fn spoil(rng: &mut Rng, case: &mut Case) {
    let words = case.lent.memory.len() as u64;
    let record = &mut case.lent.record;
    if rng.one_in(4) {
        return another_length(rng, record);
    }
    match record.len() {
        CHANNEL_NUMBERS => spoil_channel(rng, record),
        MACHINE_NUMBERS if rng.one_in(2) => spoil_machine(rng, record),
        _ => spoil_central(rng, record, words),
    }
}

fn another_length(rng: &mut Rng, record: &mut Vec<u64>) {
    let length = record.len();
    let others = [
        CHANNEL_NUMBERS,
        CENTRAL_NUMBERS,
        MACHINE_NUMBERS,
        2 * length,
    ];
    let other = match rng.pick(&others) {
        same if same == length => 0,
        other => other,
    };
    record.resize(rng.pick(&[0, 1, length - 1, length + 1, other]), 0);
}

fn spoil_channel(rng: &mut Rng, channel: &mut [u64]) {
    if rng.one_in(3) {
        channel[WORD] = over(rng, ONES_12);
    } else {
        channel[rng.place(3)] = rng.pick(&[2, 3, 256, 1 << 32, u64::MAX]);
    }
}

fn spoil_machine(rng: &mut Rng, record: &mut [u64]) {
    let channel = layout::channel(rng.place(CHANNELS));
    let processor = layout::processor(rng.place(PROCESSORS));
    match rng.below(8) {
        0 => record[CLOCK] = over(rng, ONES_12),
        1..=4 => spoil_channel(rng, &mut record[channel..][..CHANNEL_NUMBERS]),
        5 => record[processor + PROCESSOR_P] = over(rng, ONES_12),
        6 => record[processor + PROCESSOR_A] = over(rng, ONES_18),
        _ => {
            let stops = [1, 5, 30, 37, 256 + 31, 1 << 32, u64::MAX];
            record[processor + PROCESSOR_STOP] = rng.pick(&stops);
        }
    }
}

fn spoil_central(rng: &mut Rng, record: &mut [u64], words: u64) {
    let n = rng.place(8);
    match rng.below(8) {
        0 => record[rng.pick(&[P, RA, FL])] = over(rng, ONES_18),
        1 => record[A + n] = over(rng, ONES_18),
        2 => record[B + n] = over(rng, ONES_18),
        3 => record[X + n] = over(rng, ONES_60),
        4 => record[STOP] = rng.pick(&[6, 9, 30, 31, 36, 256, 257, 1 << 32, u64::MAX]),
        5 => record[EM] |= rng.pick(&[1, 0o4000, 0o100000, 0o400000, 1 << 18, 1 << 40]),
        6 => record[B] = rng.pick(&[1, 0o400000, 0o777777]),
        _ => {
            // RA + FL one past the memory, or as large as they can be.
            let ra = rng.below(words + 2);
            record[RA] = ra;
            record[FL] = words + 1 - ra;
            if rng.one_in(4) {
                record[RA] = ONES_18;
                record[FL] = ONES_18;
            }
        }
    }
}
