//! The call of a case, on libhost_calls.a.

use crate::case::{Call, Lent};
use tozhenab::flat;

/// Makes the call on what is lent and gives its number.
pub fn call(call: &Call, lent: &mut Lent) -> u64 {
    let Lent {
        memory,
        peripheral,
        record,
        result,
    } = lent;
    match call {
        Call::CentralTurn => flat::central_turn(memory, record),
        Call::CentralTurns { turns } => flat::central_turns(memory, record, *turns, result),
        Call::Exchange { address } => flat::exchange(memory, record, *address),
        Call::RunProgram { address, turns } => {
            flat::run_program(memory, record, *address, *turns, result)
        }
        Call::Schedule {
            jobs,
            stint_jobs,
            stint_turns,
        } => flat::schedule(memory, record, jobs, stint_jobs, stint_turns, result),
        Call::PeripheralTurn { processor } => {
            flat::peripheral_turn(memory, peripheral, record, *processor)
        }
        Call::Run { rounds } => flat::run(memory, peripheral, record, *rounds, result),
        Call::Put { word } => flat::put(record, *word),
        Call::Take => flat::take(record, result),
        Call::Drop => flat::drop(record),
    }
}
