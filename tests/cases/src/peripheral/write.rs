//! What is written for an instruction: its words, and A.

use crate::central::write_package;
use crate::package::HIGH;
use crate::rng::Rng;
use crate::values::{value_12, value_18, ONES_12};

/// The d that goes with a code: a channel for 64 to 77, at times 14 or above, else any, at times an
/// edge.
fn operand(rng: &mut Rng, code: u64) -> u64 {
    let channels = code >= 0o64;
    match rng.below(8) {
        0 if channels => 0o14,
        1 if channels => rng.between(0o15, 0o77),
        _ if channels => rng.below(0o14),
        0 | 1 => rng.pick(&[0, 1, 0o37, 0o40, 0o77]),
        _ => rng.below(0o100),
    }
}

/// Writes an instruction and the word after it at an address, modulo 4,096.
pub fn write_instruction(rng: &mut Rng, own: &mut [u16], at: u64, code: u64) {
    own[(at & ONES_12) as usize] = (code << 6 | operand(rng, code)) as u16;
    own[((at + 1) & ONES_12) as usize] = value_12(rng) as u16;
}

/// A for the codes that reach central memory: in it or at its end, and for 26 mostly at a package,
/// which may be at fault, or near the last sixteen words.
pub fn central_address(rng: &mut Rng, central: &mut [u64], code: u64) -> u64 {
    let length = central.len() as u64;
    match rng.below(8) {
        0 => value_18(rng, length),
        1 if code == 0o26 => length.saturating_sub(rng.between(14, 17)),
        1 => length - rng.below(2),
        2..=5 if code != 0o26 => rng.below(length),
        fault => {
            let at = write_package(rng, central);
            if central.len() >= 16 && fault == 2 {
                let word = rng.place(8);
                central[at as usize + word] |= 1 << rng.between(54, 59);
            } else if central.len() >= 16 && fault == 3 {
                // FL one past what there is room for.
                let ra = central[at as usize + 1] >> HIGH;
                let low = central[at as usize + 2] & ((1 << HIGH) - 1);
                central[at as usize + 2] = (length + 1 - ra) << HIGH | low;
            }
            at
        }
    }
}
