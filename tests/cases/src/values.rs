//! Values of registers and words: edges, values near the ends of a field, and any.

use crate::rng::Rng;

pub const ONES_12: u64 = (1 << 12) - 1;
pub const ONES_18: u64 = (1 << 18) - 1;
pub const ONES_60: u64 = (1 << 60) - 1;

const EDGES_60: [u64; 8] = [
    0,
    1,
    ONES_60,
    ONES_60 - 1,
    1 << 59,
    (1 << 59) - 1,
    (1 << 59) + 1,
    ONES_60 >> 12,
];

/// Among them the ends of an 11-bit exponent.
const EDGES_18: [u64; 14] = [
    0, 1, 2, 0o1776, 0o1777, 0o2000, 0o3777, 0o177777, 0o377777, 0o400000, 0o400001, 0o777775,
    0o777776, 0o777777,
];

pub const EDGES_12: [u64; 6] = [0, 1, 0o3777, 0o4000, 0o7776, 0o7777];

/// Top 12 bits of infinite, indefinite and ordinary floating words.
const TOPS: [u64; 10] = [
    0o3777, 0o4000, 0o1777, 0o6000, 0o2000, 0o5777, 0o1776, 0o6001, 0o0000, 0o7777,
];

/// A word of 60 bits.
pub fn word_60(rng: &mut Rng) -> u64 {
    match rng.below(8) {
        0 => rng.pick(&EDGES_60),
        1 => rng.below(0o1000),
        2 => ONES_60 - rng.below(0o1000),
        3 | 4 => {
            let low = rng.number() & (ONES_60 >> 12);
            (rng.pick(&TOPS) << 48) | rng.pick(&[0, low, ONES_60 >> 12])
        }
        _ => rng.number() & ONES_60,
    }
}

/// A word that the conditions of code 03 tell from others: zero, or infinite, or indefinite.
pub fn word_for_condition(rng: &mut Rng) -> u64 {
    match rng.below(4) {
        0 => rng.pick(&[0, ONES_60]),
        1 => word_60(rng),
        _ => rng.pick(&TOPS[..4]) << 48 | rng.number() >> 16,
    }
}

/// A value of 18 bits, often an address in or near a field of `fl` words.
pub fn value_18(rng: &mut Rng, fl: u64) -> u64 {
    let value = match rng.below(8) {
        0 => rng.pick(&EDGES_18),
        1 => rng.below(0o100),
        2 => ONES_18 - rng.below(0o100),
        3 => (fl + 1).saturating_sub(rng.below(3)),
        4 => rng.number(),
        _ => rng.below(fl.max(1)),
    };
    value & ONES_18
}

/// A Bj for 22 and 23, in either sign: mostly of a magnitude next to which their rules change.
pub fn shift_count(rng: &mut Rng) -> u64 {
    let magnitude = match rng.below(8) {
        0 => rng.below(1 << 17),
        1 => rng.below(0o100),
        2 => rng.between(2, 0o3777) << 6,
        _ => rng.pick(&[0, 0o77, 0o100, 0o101, 0o377777]),
    };
    if rng.one_in(2) {
        magnitude
    } else {
        ONES_18 - magnitude
    }
}

/// A value of 12 bits.
pub fn value_12(rng: &mut Rng) -> u64 {
    match rng.below(4) {
        0 => rng.pick(&EDGES_12),
        1 => rng.below(0o100),
        _ => rng.below(1 << 12),
    }
}

/// A value over `ones`, the greatest that is allowed; by little, by one high bit or by much.
pub fn over(rng: &mut Rng, ones: u64) -> u64 {
    let high = rng.between(u64::from(ones.count_ones()), 63);
    match rng.below(4) {
        0 => ones + 1,
        1 => (rng.number() & ones) | 1 << high,
        2 => u64::MAX,
        _ => ones + 1 + rng.below(ones),
    }
}

/// A result slice with room for so many numbers, and sometimes more; it holds any values before the
/// call.
pub fn result_slice(rng: &mut Rng, length: usize) -> Vec<u64> {
    let more = if rng.one_in(4) { 1 + rng.place(4) } else { 0 };
    (0..length + more).map(|_| rng.number()).collect()
}
