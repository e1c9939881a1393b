//! Words of central instructions.

use crate::rng::Rng;
use crate::values::{value_18, word_60};

/// Codes of 30 bits: 01 to 07, 50 to 52, 60 to 62, 70 to 72.
pub fn is_long(code: u64) -> bool {
    matches!(code, 0o01..=0o07 | 0o50..=0o52 | 0o60..=0o62 | 0o70..=0o72)
}

/// Codes that are left out.
pub fn is_left_out(code: u64) -> bool {
    matches!(code, 0o25 | 0o34 | 0o35 | 0o40..=0o42 | 0o44 | 0o45)
}

/// The floating codes, which stop at special operands by EM.
pub const FLOATING: [u64; 5] = [0o24, 0o30, 0o31, 0o32, 0o33];

/// Codes that compute and go on to the next parcel, but for a stop at an operand.
const COMPUTING: [u64; 48] = [
    0o10, 0o11, 0o12, 0o13, 0o14, 0o15, 0o16, 0o17, 0o20, 0o21, 0o22, 0o23, 0o24, 0o26, 0o27, 0o30,
    0o31, 0o32, 0o33, 0o36, 0o37, 0o43, 0o46, 0o47, 0o50, 0o51, 0o52, 0o53, 0o54, 0o55, 0o56, 0o57,
    0o60, 0o61, 0o62, 0o63, 0o64, 0o65, 0o66, 0o67, 0o70, 0o71, 0o72, 0o73, 0o74, 0o75, 0o76, 0o77,
];

/// A code that a program is likely to hold.
fn usual_code(rng: &mut Rng) -> u64 {
    match rng.below(16) {
        0 => rng.below(0o100),
        1..=3 => rng.between(0o01, 0o07),
        _ => rng.pick(&COMPUTING),
    }
}

/// A word whose first parcel has this code, for a field of `fl` words.
pub fn word_with(rng: &mut Rng, code: u64, fl: u64) -> u64 {
    let mut word = 0;
    let mut left = 60;
    let mut code = code;
    while left > 0 {
        // Mostly, no long code begins in the last parcel, where it stops.
        if is_long(code) && left == 15 && !rng.one_in(4) {
            code = 0o46;
        }
        let mut ijk = rng.below(0o1000);
        if code == 0o01 && !rng.one_in(4) {
            ijk &= 0o077;
        }
        let parcel = code << 9 | ijk;
        if is_long(code) && left > 15 {
            left -= 30;
            word = word << 30 | (parcel >> 3) << 18 | value_18(rng, fl);
        } else {
            left -= 15;
            word = word << 15 | parcel;
        }
        code = usual_code(rng);
    }
    word
}

/// A word that reads, stores or returns at an end of the field: 51 with j = 0, or 010.
pub fn edge_word(rng: &mut Rng, fl: u64) -> u64 {
    let begin = match rng.below(8) {
        0 => 0o0100,
        i => 0o5100 | i << 3,
    };
    let k = (fl + 1).saturating_sub(rng.below(3));
    begin << 48 | k << 30 | program_word(rng, fl) >> 30
}

/// A word of a program.
pub fn program_word(rng: &mut Rng, fl: u64) -> u64 {
    let code = usual_code(rng);
    word_with(rng, code, fl)
}

/// A word of a loop: nothing that stops, stores or sets a B register.
fn loop_word(rng: &mut Rng) -> u64 {
    (0..4).fold(0, |word, _| {
        let code = rng.pick(&COMPUTING);
        let left_alone = is_long(code) || code == 0o26 || matches!(code >> 3, 5 | 6);
        let parcel = if left_alone || FLOATING.contains(&code) {
            0o46 << 9
        } else {
            code << 9 | rng.below(0o1000)
        };
        word << 15 | parcel
    })
}

/// 02, which goes to the beginning.
const GO_TO_BEGIN: u64 = 0o02 << 54;

/// B1 = B1 - 1, then 05, which goes to the beginning where B1 is not zero.
const COUNT_DOWN: u64 = 0o61117_77776_05100_00000;

/// Fills a field with a loop that has no end, or one that counts B1 down and goes on to a last word.
pub fn fill_loop(rng: &mut Rng, field: &mut [u64]) {
    let end = if rng.one_in(2) {
        &[GO_TO_BEGIN][..]
    } else {
        &[COUNT_DOWN, field_word(rng, field.len() as u64)]
    };
    for word in &mut *field {
        *word = loop_word(rng);
    }
    for (word, &last) in field.iter_mut().rev().zip(end.iter().rev()) {
        *word = last;
    }
}

/// Fills a field: mostly with any program, at times with a loop.
pub fn fill_field(rng: &mut Rng, field: &mut [u64]) {
    if rng.one_in(4) {
        return fill_loop(rng, field);
    }
    let fl = field.len() as u64;
    for word in field {
        *word = field_word(rng, fl);
    }
}

/// A word of a field: an instruction word more often than data.
pub fn field_word(rng: &mut Rng, fl: u64) -> u64 {
    if rng.one_in(4) {
        word_60(rng)
    } else {
        program_word(rng, fl)
    }
}
