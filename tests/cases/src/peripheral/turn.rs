//! Cases of a peripheral turn.

use super::edge;
use super::write::{central_address, write_instruction};
use super::{machine_lent, processor_count, WORDS};
use crate::case::{Call, Case};
use crate::rng::Rng;
use tozhenab::layout::{self, PROCESSOR_A, PROCESSOR_P};

/// A turn of a peripheral processor. The word at P has any code, every other time at an edge.
pub fn turn_case(rng: &mut Rng) -> Case {
    let count = processor_count(rng);
    let processor = rng.place(count);
    let mut lent = machine_lent(rng, count);
    let code = rng.below(0o100);
    let at = layout::processor(processor);
    let p = lent.record[at + PROCESSOR_P];
    let own = &mut lent.peripheral[WORDS * processor..][..WORDS];
    write_instruction(rng, own, p, code);
    if rng.one_in(2) {
        edge::bring_about(rng, own, p, &mut lent.record[at + PROCESSOR_A]);
    }
    if matches!(code, 0o26 | 0o60 | 0o62) {
        lent.record[at + PROCESSOR_A] = central_address(rng, &mut lent.memory, code);
    }
    Case {
        call: Call::PeripheralTurn {
            processor: processor as u64,
        },
        lent,
        faults: Vec::new(),
    }
}
