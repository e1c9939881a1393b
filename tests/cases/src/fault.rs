//! Faults: what brings about each refusal.

use crate::case::{Call, Case};
use crate::rng::Rng;
use crate::values::{over, ONES_12};

mod lists;
mod memory;
mod package;
mod record;

/// Brings about one to three of the refusals that the call can give. Those with low numbers come
/// last: the others need what is lent still to have its length.
pub fn add(rng: &mut Rng, case: &mut Case) {
    let count = rng.pick(&[1, 1, 1, 1, 1, 2, 2, 3]);
    case.faults = (0..count).map(|_| rng.pick(case.call.refusals())).collect();
    case.faults.sort_unstable_by(|a, b| b.cmp(a));
    case.faults.dedup();
    for number in case.faults.clone() {
        bring_about(rng, case, number);
    }
}

fn bring_about(rng: &mut Rng, case: &mut Case, number: u64) {
    match number {
        1 => memory::central_length(rng, &mut case.lent.memory),
        2 => memory::peripheral_length(rng, case),
        3 => memory::wide_central_word(rng, &mut case.lent.memory),
        4 => memory::wide_peripheral_word(rng, &mut case.lent.peripheral),
        5 => record::spoil(rng, case),
        6 => lists::list_length(rng, case),
        7 => lists::unlisted_job(rng, &mut case.call),
        8 => lists::too_many_turns(rng, &mut case.call),
        9 => package::past_end(rng, case),
        10 => package::stray(rng, case),
        11 => package::field_past_end(rng, case),
        12 => package::shared_word(rng, case),
        13 => {
            case.call = Call::Put {
                word: over(rng, ONES_12),
            }
        }
        14 => case.lent.record[..2].copy_from_slice(rng.pick(&[&[0, 0], &[0, 1], &[1, 1]])),
        15 => case.lent.record[..2].copy_from_slice(rng.pick(&[&[0, 0], &[0, 1], &[1, 0]])),
        _ => unreachable!("no call gives number {number}"),
    }
}
