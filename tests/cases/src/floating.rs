//! Floating words, and what 24 and 30 to 33 give, by the text of request (f).

use crate::values::ONES_60;

pub mod operands;
pub mod sum;

/// The bits of a coefficient, and the highest of them.
pub const ONES_48: u64 = (1 << 48) - 1;
pub const TOP_48: u64 = 1 << 47;

/// The greatest and the least exponent of a finite word.
pub const GREATEST: i64 = 1022;
pub const LEAST: i64 = -1023;

const INFINITE: u64 = 0o3777;
const INDEFINITE: u64 = 0o1777;

/// What a word is by its top 12 bits.
#[derive(Clone, Copy, PartialEq, Eq)]
pub enum Kind {
    Finite,
    Infinite,
    Indefinite,
}

pub fn is_negative(word: u64) -> bool {
    word > ONES_60 / 2
}

/// The word, complemented where it is to be negative.
fn signed(negative: bool, word: u64) -> u64 {
    if negative {
        ONES_60 - word
    } else {
        word
    }
}

/// The word without its sign.
fn unsigned(word: u64) -> u64 {
    signed(is_negative(word), word)
}

pub fn kind(word: u64) -> Kind {
    match unsigned(word) >> 48 {
        INFINITE => Kind::Infinite,
        INDEFINITE => Kind::Indefinite,
        _ => Kind::Finite,
    }
}

/// The coefficient without its sign; of a special word its low bits.
pub fn size(word: u64) -> u64 {
    unsigned(word) & ONES_48
}

/// The exponent of a finite word; 1777 is none.
pub fn exponent(word: u64) -> i64 {
    let stored = (unsigned(word) >> 48) as i64;
    stored - if stored < 0o2000 { 0o1777 } else { 0o2000 }
}

/// The finite word with this exponent, which is within the limits.
pub fn finite(negative: bool, exponent: i64, size: u64) -> u64 {
    let stored = exponent + if exponent < 0 { 0o1777 } else { 0o2000 };
    signed(negative, (stored as u64) << 48 | size)
}

/// The infinite and the indefinite word with these low bits.
pub fn infinite(negative: bool, low: u64) -> u64 {
    signed(negative, INFINITE << 48 | low)
}

pub fn indefinite(negative: bool, low: u64) -> u64 {
    signed(negative, INDEFINITE << 48 | low)
}

/// What is given for an exponent that may be past a limit.
fn limited(negative: bool, exponent: i64, size: u64) -> u64 {
    match exponent {
        ..LEAST => 0,
        LEAST..=GREATEST => finite(negative, exponent, size),
        _ => infinite(negative, 0),
    }
}

/// What 24 gives of a word, and the count that it leaves in Bj.
pub fn normalized(word: u64) -> (u64, u64) {
    if kind(word) != Kind::Finite {
        return (word, 0);
    }
    let size = size(word);
    let count = u64::from(size.leading_zeros() - 16);
    let exponent = exponent(word) - count as i64;
    let moved = (size << count) & ONES_48;
    (limited(is_negative(word), exponent, moved), count)
}

/// Whether a code subtracts.
fn is_difference(code: usize) -> bool {
    code % 2 == 1
}

/// The two addends of 30 to 33: a difference is the sum of Xj and the complement of Xk.
pub fn addends(code: usize, [xj, xk]: [u64; 2]) -> [u64; 2] {
    [xj, signed(is_difference(code), xk)]
}
