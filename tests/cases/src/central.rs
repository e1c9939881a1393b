//! Central memory, central records, and cases of a central turn and of an exchange.

use crate::case::{Call, Case, Lent};
use crate::floating::operands;
use crate::instruction::{edge_word, field_word, word_with, FLOATING};
use crate::package::{package_of, WORDS};
use crate::rng::Rng;
use crate::values::{shift_count, value_18, word_60, word_for_condition};
use tozhenab::layout::{A, B, CENTRAL_NUMBERS, EM, FL, P, RA, STOP, X};
use tozhenab::limits::MOST_WORDS;

/// The stops that a record may hold.
pub const STOPS: [u64; 7] = [1, 2, 3, 4, 5, 7, 8];

/// A length of central memory: mostly small.
pub fn memory_length(rng: &mut Rng) -> usize {
    match rng.below(512) {
        0 => MOST_WORDS,
        1 => MOST_WORDS - rng.place(20),
        2..=9 => 4096 + rng.place(100),
        10..=40 => 1 + rng.place(18),
        _ => 17 + rng.place(120),
    }
}

/// Central memory of instructions and data. Of a large one few words are not zero, and some of
/// these are the last.
pub fn memory(rng: &mut Rng, length: usize) -> Vec<u64> {
    let mut memory = vec![0; length];
    let fl = length as u64;
    if length <= 256 {
        for word in &mut memory {
            if !rng.one_in(4) {
                *word = field_word(rng, fl);
            }
        }
    } else {
        for _ in 0..64 {
            let at = rng.place(length);
            memory[at] = field_word(rng, fl);
        }
        for word in memory.iter_mut().rev().take(20) {
            *word = word_60(rng);
        }
    }
    memory
}

/// RA and FL of a field in a memory of this length.
fn field(rng: &mut Rng, length: u64) -> (u64, u64) {
    let ra = match rng.below(4) {
        0 => 0,
        1 => length.saturating_sub(rng.below(4)),
        _ => rng.below(length + 1),
    };
    let room = length - ra;
    let fl = match rng.below(8) {
        0 => rng.below(3).min(room),
        1..=4 => room,
        _ => rng.below(room + 1),
    };
    (ra, fl)
}

/// P of a program with a field of `fl` words: mostly in it.
pub fn program_address(rng: &mut Rng, fl: u64) -> u64 {
    match rng.below(16) {
        0 => fl.saturating_sub(1),
        1 => fl,
        2 => value_18(rng, fl),
        _ => rng.below(fl.max(1)),
    }
}

/// A, B and X registers.
pub fn fill_registers(rng: &mut Rng, record: &mut [u64], fl: u64) {
    for n in 0..8 {
        record[A + n] = value_18(rng, fl);
        record[X + n] = if rng.one_in(3) {
            value_18(rng, fl)
        } else {
            word_60(rng)
        };
    }
    for n in 1..8 {
        // Equal registers, for the codes that compare.
        record[B + n] = if n > 1 && rng.one_in(4) {
            record[B + n - 1]
        } else {
            value_18(rng, fl)
        };
    }
}

/// A central record that is sound over a memory of this length.
pub fn central_record(rng: &mut Rng, length: usize) -> Vec<u64> {
    let mut record = vec![0; CENTRAL_NUMBERS];
    let (ra, fl) = field(rng, length as u64);
    record[P] = program_address(rng, fl);
    record[RA] = ra;
    record[FL] = fl;
    record[EM] = rng.below(8) << 12;
    fill_registers(rng, &mut record, fl);
    if rng.one_in(16) {
        record[STOP] = rng.pick(&STOPS);
    }
    record
}

/// Memory and a sound central record.
pub fn central_lent(rng: &mut Rng) -> Lent {
    let length = memory_length(rng);
    Lent {
        memory: memory(rng, length),
        record: central_record(rng, length),
        ..Lent::default()
    }
}

/// Codes whose rules have many edges, those with the most of them most often.
const WITH_EDGES: [u64; 15] = [
    0o22, 0o23, 0o24, 0o30, 0o30, 0o30, 0o31, 0o31, 0o31, 0o32, 0o32, 0o32, 0o33, 0o33, 0o33,
];

/// A central turn. The word at P mostly begins with any code, or with one of those.
pub fn turn_case(rng: &mut Rng) -> Case {
    let mut lent = central_lent(rng);
    let (p, ra, fl) = (lent.record[P], lent.record[RA], lent.record[FL]);
    if p < fl {
        let word = &mut lent.memory[(ra + p) as usize];
        match rng.below(16) {
            0 => {}
            1 => *word = edge_word(rng, fl),
            choice => {
                let code = match choice {
                    2..=7 => rng.pick(&WITH_EDGES),
                    _ => rng.below(0o100),
                };
                *word = word_with(rng, code, fl);
            }
        }
        match *word >> 54 {
            0o03 => lent.record[X..X + 8].fill_with(|| word_for_condition(rng)),
            0o22 | 0o23 => {
                lent.record[B + 1..B + 8].fill_with(|| shift_count(rng));
                lent.record[X..X + 8].fill_with(|| word_60(rng));
            }
            code if FLOATING.contains(&code) => operands::fill(rng, *word, &mut lent.record),
            _ => {}
        }
    }
    Case {
        call: Call::CentralTurn,
        lent,
        faults: Vec::new(),
    }
}

/// Writes a sound package somewhere, where there is room, and gives its address.
pub fn write_package(rng: &mut Rng, memory: &mut [u64]) -> u64 {
    let Some(last) = memory.len().checked_sub(WORDS) else {
        return rng.below(4);
    };
    let address = match rng.below(4) {
        0 => 0,
        1 => last,
        _ => rng.place(last + 1),
    };
    let record = central_record(rng, memory.len());
    memory[address..address + WORDS].copy_from_slice(&package_of(&record));
    address as u64
}

/// An exchange jump at a sound package, wherever it lies.
pub fn exchange_case(rng: &mut Rng) -> Case {
    let mut lent = central_lent(rng);
    let address = write_package(rng, &mut lent.memory);
    Case {
        call: Call::Exchange { address },
        lent,
        faults: Vec::new(),
    }
}
