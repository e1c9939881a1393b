//! Channels, and cases of the device calls.

use crate::case::{Call, Case, Lent};
use crate::rng::Rng;
use crate::values::{result_slice, value_12};
use tozhenab::layout::CHANNEL_NUMBERS;

/// A sound channel, also one that no call leaves behind.
pub fn channel(rng: &mut Rng) -> [u64; CHANNEL_NUMBERS] {
    let flags = rng.below(8);
    let word = if rng.one_in(4) { 0 } else { value_12(rng) };
    [flags & 1, flags >> 1 & 1, flags >> 2, word]
}

/// A put, a take or a drop.
pub fn case(rng: &mut Rng) -> Case {
    let call = match rng.below(3) {
        0 => Call::Put {
            word: value_12(rng),
        },
        1 => Call::Take,
        _ => Call::Drop,
    };
    let record = channel(rng).to_vec();
    let result = match call {
        Call::Take => result_slice(rng, call.result_length()),
        _ => Vec::new(),
    };
    Case {
        call,
        lent: Lent {
            record,
            result,
            ..Lent::default()
        },
        faults: Vec::new(),
    }
}
