//! Operands of 24 and 30 to 33: mostly at places where their rules change.

use super::{
    addends, exponent, finite, indefinite, infinite, size, GREATEST, LEAST, ONES_48, TOP_48,
};
use crate::rng::Rng;
use crate::values::ONES_60;
use tozhenab::layout::{EM, X};

/// Gives the first instruction of the word, a floating code, its operands. Every other time EM has
/// neither of the bits with which they can stop it.
pub fn fill(rng: &mut Rng, word: u64, record: &mut [u64]) {
    let digit = |place: u64| (word >> place & 7) as usize;
    let (code, j, k) = ((word >> 54) as usize, digit(48), digit(45));
    if rng.one_in(2) {
        record[EM] &= 0o010000;
    }
    if code == 0o24 {
        record[X + k] = to_normalize(rng);
    } else {
        // A difference turns the sign of Xk, so that its addends are this pair too.
        [record[X + j], record[X + k]] = addends(code, pair(rng));
    }
}

/// Two words of any kind, with low bits or without, or two finite ones.
fn pair(rng: &mut Rng) -> [u64; 2] {
    match rng.below(4) {
        0 => [0; 2].map(|low| any_kind(rng, low)),
        1 => [0; 2].map(|_| with_low_bits(rng)),
        _ => finite_pair(rng),
    }
}

fn with_low_bits(rng: &mut Rng) -> u64 {
    let any = rng.number() & ONES_48;
    let low = rng.pick(&[1, ONES_48, any]);
    any_kind(rng, low)
}

/// A finite, an infinite or an indefinite word of either sign; a special one with these low bits.
fn any_kind(rng: &mut Rng, low: u64) -> u64 {
    let negative = rng.one_in(2);
    match rng.below(5) {
        0 => finite(negative, any_exponent(rng), coefficient(rng)),
        1 | 2 => infinite(negative, low),
        _ => indefinite(negative, low),
    }
}

fn any_exponent(rng: &mut Rng) -> i64 {
    rng.below(2046) as i64 + LEAST
}

/// A coefficient: none, one bit, all bits, normalized, or with zeros before it.
fn coefficient(rng: &mut Rng) -> u64 {
    let any = rng.number() & ONES_48;
    match rng.below(8) {
        0 => 0,
        1 => rng.pick(&[1, TOP_48, ONES_48]),
        2..=5 => any | TOP_48,
        _ => any >> rng.below(48),
    }
}

/// How far apart the exponents of a sum are: mostly a number of places after which bits go to the other
/// half, or away.
fn distance(rng: &mut Rng) -> i64 {
    match rng.below(16) {
        0 => rng.below(97) as i64,
        1 | 2 => rng.between(98, 2000) as i64,
        _ => rng.pick(&[1, 47, 48, 49, 95, 96, 97]),
    }
}

/// The greater exponent of a sum: often one with which a half is at a limit, or past it.
fn greater_exponent(rng: &mut Rng) -> i64 {
    match rng.below(16) {
        0 | 1 => GREATEST - rng.below(2) as i64,
        2 => LEAST + 48 - rng.below(2) as i64,
        3 => LEAST + rng.below(48) as i64,
        4 => LEAST,
        _ => any_exponent(rng),
    }
}

/// Two finite words, either of which may have the greater exponent.
fn finite_pair(rng: &mut Rng) -> [u64; 2] {
    let greater = greater_exponent(rng);
    let less = (greater - distance(rng)).max(LEAST);
    let mut pair =
        [greater, less].map(|exponent| finite(rng.one_in(2), exponent, coefficient(rng)));
    match rng.below(32) {
        0 => pair[1] = ONES_60 - pair[0],
        1 | 2 => pair = negative_zeros(rng, pair),
        3 => pair = [finite(true, rng.pick(&[LEAST, LEAST + 48]), 0); 2],
        4 | 5 => pair = past_greatest(rng),
        _ => {}
    }
    if rng.one_in(2) {
        pair.swap(0, 1);
    }
    pair
}

/// Both words negative, the first without bits, and at times the second too.
fn negative_zeros(rng: &mut Rng, [a, b]: [u64; 2]) -> [u64; 2] {
    let rest = if rng.one_in(2) { 0 } else { size(b) };
    [
        finite(true, exponent(a), 0),
        finite(true, exponent(b), rest),
    ]
}

/// Two words of one sign that overflow at the greatest exponent, or at the one before it.
fn past_greatest(rng: &mut Rng) -> [u64; 2] {
    let (negative, exponent) = (rng.one_in(2), GREATEST - rng.below(2) as i64);
    [0; 2].map(|_| finite(negative, exponent, coefficient(rng) | TOP_48))
}

/// A word for 24: of any count, at times with the exponent that the count brings to the least, or past it.
fn to_normalize(rng: &mut Rng) -> u64 {
    if rng.one_in(4) {
        return with_low_bits(rng);
    }
    let count = match rng.below(8) {
        0..=4 => rng.pick(&[0, 1, 47, 48]),
        _ => rng.below(49),
    };
    let bits = rng.number() & (TOP_48 - 1) | TOP_48;
    let exponent = match rng.below(4) {
        0 => LEAST + count as i64,
        1 => LEAST + rng.below(49) as i64,
        _ => any_exponent(rng),
    };
    finite(rng.one_in(2), exponent, bits >> count)
}
