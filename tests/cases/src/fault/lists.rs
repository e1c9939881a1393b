//! Numbers 6 to 8: the lists of a schedule, result slices, and counts of turns.

use crate::case::{Call, Case};
use crate::rng::Rng;
use tozhenab::limits::{MOST_JOBS, MOST_STINTS, MOST_TURNS};

/// A result that is too short or, of a schedule, a list of a length that is not allowed.
pub fn list_length(rng: &mut Rng, case: &mut Case) {
    if let Call::Schedule {
        jobs,
        stint_jobs,
        stint_turns,
    } = &mut case.call
    {
        match rng.below(6) {
            0 => jobs.clear(),
            1 => jobs.resize(MOST_JOBS + 1 + rng.place(MOST_JOBS), 0),
            2 => {
                stint_jobs.resize(MOST_STINTS + 1, 0);
                stint_turns.resize(MOST_STINTS + 1, 1);
            }
            3 => stint_turns.push(1),
            4 => stint_jobs.push(0),
            _ => {}
        }
    }
    let needed = case.call.result_length();
    let length = case.lent.result.len();
    if matches!(case.call, Call::Schedule { .. }) && rng.one_in(2) {
        // The lists may be what is wrong, and the result have room.
        case.lent.result.resize(needed.max(length), 7);
    } else {
        case.lent.result.truncate(rng.place(needed.max(1)));
    }
}

pub fn unlisted_job(rng: &mut Rng, call: &mut Call) {
    if let Call::Schedule {
        jobs, stint_jobs, ..
    } = call
    {
        let count = jobs.len() as u64;
        let job = rng.pick(&[count, count + 1, MOST_JOBS as u64, 255, 1 << 32, u64::MAX]);
        if !stint_jobs.is_empty() {
            let at = rng.place(stint_jobs.len());
            stint_jobs[at] = job;
        }
    }
}

pub fn too_many_turns(rng: &mut Rng, call: &mut Call) {
    let many = rng.pick(&[MOST_TURNS + 1, MOST_TURNS + 2, 131_072, 1 << 32, u64::MAX]);
    match call {
        Call::CentralTurns { turns } | Call::RunProgram { turns, .. } => *turns = many,
        Call::Run { rounds } => *rounds = many,
        Call::Schedule { stint_turns, .. } if !stint_turns.is_empty() => {
            let at = rng.place(stint_turns.len());
            stint_turns[at] = many;
        }
        _ => {}
    }
}
