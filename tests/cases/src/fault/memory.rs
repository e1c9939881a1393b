//! Numbers 1 to 4: lengths and words of the memories.

use crate::case::{Call, Case};
use crate::peripheral::WORDS;
use crate::rng::Rng;
use crate::values::{over, ONES_60};
use tozhenab::layout::PROCESSORS;
use tozhenab::limits::MOST_WORDS;

pub fn central_length(rng: &mut Rng, memory: &mut Vec<u64>) {
    if rng.one_in(8) {
        memory.resize(MOST_WORDS + 1, 0);
    } else {
        memory.clear();
    }
}

pub fn peripheral_length(rng: &mut Rng, case: &mut Case) {
    let length = case.lent.peripheral.len();
    if let Call::PeripheralTurn { processor } = &mut case.call {
        if rng.one_in(2) {
            let count = (length / WORDS) as u64;
            *processor = rng.pick(&[count, count + 1, 10, 1 << 32, 1 << 52, u64::MAX]);
            return;
        }
    }
    let most = PROCESSORS * WORDS;
    let lengths = [
        0,
        1,
        length - 1,
        length + 1,
        length / 2 + 7,
        most + 1,
        most + 4096,
    ];
    case.lent.peripheral.resize(rng.pick(&lengths), 0);
}

pub fn wide_central_word(rng: &mut Rng, memory: &mut [u64]) {
    let at = match rng.below(4) {
        0 => 0,
        1 => memory.len() - 1,
        _ => rng.place(memory.len()),
    };
    memory[at] = over(rng, ONES_60);
}

pub fn wide_peripheral_word(rng: &mut Rng, memory: &mut [u16]) {
    let at = match rng.below(4) {
        0 => 0,
        1 => memory.len() - 1,
        _ => rng.place(memory.len()),
    };
    memory[at] = rng.between(4096, 65_535) as u16;
}
