//! The case of a seed and an index.

use crate::case::Case;
use crate::rng::Rng;
use crate::{central, device, fault, job, peripheral};

/// Makes a case: of 32, eight are central turns, two calls of many of them, seven peripheral turns,
/// three device calls, and so on. One in five has faults.
pub fn generate(seed: u64, index: u64) -> Case {
    let mut rng = Rng::new(seed, index);
    let rng = &mut rng;
    let mut case = match rng.below(32) {
        0 | 1 => job::turns_case(rng),
        2..=9 => central::turn_case(rng),
        10..=12 => central::exchange_case(rng),
        13..=16 => job::program_case(rng),
        17..=19 => job::schedule_case(rng),
        20..=26 => peripheral::turn_case(rng),
        27 | 28 => peripheral::run_case(rng),
        _ => device::case(rng),
    };
    if rng.one_in(5) {
        fault::add(rng, &mut case);
    }
    case
}
