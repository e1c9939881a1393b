//! Numbers 9 to 12: exchange packages and the fields that they name.

use crate::case::{Call, Case};
use crate::package::{stray_bits, HIGH, WORDS};
use crate::rng::Rng;
use crate::values::ONES_18;

/// The addresses of the packages of a call.
fn addresses(call: &mut Call) -> &mut [u64] {
    match call {
        Call::Exchange { address } | Call::RunProgram { address, .. } => {
            std::slice::from_mut(address)
        }
        Call::Schedule { jobs, .. } => jobs,
        _ => &mut [],
    }
}

/// A package from 15 words before the end of memory on, or far past it.
pub fn past_end(rng: &mut Rng, case: &mut Case) {
    let length = case.lent.memory.len() as u64;
    let near = (length + 1).saturating_sub(rng.below(WORDS as u64 + 1));
    let far = [1 << 18, 1 << 32, 1 << 61, u64::MAX - 15, u64::MAX];
    let past = if rng.one_in(2) { near } else { rng.pick(&far) };
    let jobs = addresses(&mut case.call);
    if !jobs.is_empty() {
        jobs[rng.place(jobs.len())] = past;
    }
}

/// The address of one of the packages, if it is in memory.
fn one_package(rng: &mut Rng, case: &mut Case) -> Option<usize> {
    let jobs = addresses(&mut case.call);
    if jobs.is_empty() {
        return None;
    }
    let at = jobs[rng.place(jobs.len())];
    let end = at.checked_add(WORDS as u64)?;
    (end <= case.lent.memory.len() as u64).then_some(at as usize)
}

/// Sets RA or FL, in word 1 or 2 of a package.
fn set_high(word: &mut u64, value: u64) {
    *word = value << HIGH | (*word & ((1 << HIGH) - 1));
}

/// Sets one of the bits that have to be zero.
pub fn stray(rng: &mut Rng, case: &mut Case) {
    let Some(at) = one_package(rng, case) else {
        return;
    };
    let word = rng.place(8);
    let bits: Vec<u64> = (0..60)
        .map(|n| 1 << n)
        .filter(|bit| stray_bits(word) & bit != 0)
        .collect();
    case.lent.memory[at + word] |= rng.pick(&bits);
}

/// RA + FL one past the memory, or as large as they can be.
pub fn field_past_end(rng: &mut Rng, case: &mut Case) {
    let length = case.lent.memory.len() as u64;
    let Some(at) = one_package(rng, case) else {
        return;
    };
    let fl = rng.below(length + 1);
    let (ra, fl) = if rng.one_in(4) {
        (ONES_18, ONES_18)
    } else {
        (length + 1 - fl, fl)
    };
    set_high(&mut case.lent.memory[at + 1], ra);
    set_high(&mut case.lent.memory[at + 2], fl);
}

/// A package listed twice, or a field that holds a word of a package or of another field.
pub fn shared_word(rng: &mut Rng, case: &mut Case) {
    let (Some(a), Some(b)) = (one_package(rng, case), one_package(rng, case)) else {
        return;
    };
    if rng.one_in(4) {
        if let Call::Schedule { jobs, .. } = &mut case.call {
            jobs.push(b as u64);
            return;
        }
    }
    let memory = &mut case.lent.memory;
    let field = memory[b + 1] >> HIGH & ONES_18;
    let word = if a == b || rng.one_in(2) {
        (b + rng.place(WORDS)) as u64
    } else {
        field.min(memory.len() as u64 - 1)
    };
    let ra = word - rng.below(4).min(word);
    let fl = (word - ra + 1 + rng.below(3)).min(memory.len() as u64 - ra);
    set_high(&mut memory[a + 1], ra);
    set_high(&mut memory[a + 2], fl);
}
