//! The call of a case, on the second emulator.
//!
//! Its calls take records with fields and give results by value. What only the C functions have, a
//! record of another length and a result slice that is too short, is decided here by what the
//! second emulator says of the rest. So is what a result slice holds after a refusal: 0 where it has
//! room for counts, else what it held before.

use crate::record::{self, Parts};
use cases::{Call, Lent};
use second::machine::Machine;
use second::{Made, Requests};
use tozhenab::layout::{CENTRAL_NUMBERS, MACHINE_NUMBERS, P, PROCESSORS};
use tozhenab::limits::MOST_TURNS;

/// The requests of document 02 that have landed here; the second emulator answers with these in force.
const LANDED: Requests = Requests {
    b: true,
    c: true,
    e: true,
    f: true,
    j: true,
    ..Requests::none()
};

/// Makes the call on what is lent and gives its number.
pub fn call(call: &Call, lent: &mut Lent) -> u64 {
    let needed = call.result_length();
    let room = lent.result.len() >= needed;
    if room && call.gives_counts() {
        lent.result[..needed].fill(0);
    }
    match carry_out(call, lent, room) {
        Ok(()) => 0,
        Err(number) => number.into(),
    }
}

fn carry_out(call: &Call, lent: &mut Lent, room: bool) -> Result<(), u8> {
    match call {
        Call::CentralTurn | Call::Exchange { .. } => central_call(call, lent),
        Call::CentralTurns { turns } => turns_call(*turns, lent, room),
        Call::RunProgram { .. } | Call::Schedule { .. } => job_call(call, lent, room),
        Call::PeripheralTurn { .. } | Call::Run { .. } => machine_call(call, lent, room),
        Call::Put { .. } | Call::Take | Call::Drop => device_call(call, lent, room),
    }
}

/// The central record; one of another length becomes one over its width, which is number 5 too.
fn central_of(flat: &[u64]) -> second::Central {
    if flat.len() == CENTRAL_NUMBERS {
        return record::central(flat);
    }
    let mut over = [0; CENTRAL_NUMBERS];
    over[P] = u64::MAX;
    record::central(&over)
}

fn central_call(call: &Call, lent: &mut Lent) -> Result<(), u8> {
    let mut central = central_of(&lent.record);
    match call {
        Call::Exchange { address } => {
            second::central_exchange(&LANDED, &mut lent.memory, &[], &mut central, *address)?
        }
        _ => second::central_turn(&LANDED, &mut lent.memory, &mut [], &mut central)?,
    }
    record::keep_central(&mut lent.record, &central);
    Ok(())
}

/// The second emulator has no call of many turns; they are those that its stints make.
fn turns_call(turns: u64, lent: &mut Lent, room: bool) -> Result<(), u8> {
    let mut central = central_of(&lent.record);
    // A turn of a stopped processor changes nothing and meets numbers 1, 3 and 5.
    let mut stopped = central.clone();
    stopped.stop = stopped.stop.max(1);
    second::central_turn(&LANDED, &mut lent.memory, &mut [], &mut stopped)?;
    if !room {
        return Err(6);
    }
    if turns > MOST_TURNS {
        return Err(8);
    }
    let field = &mut lent.memory[central.field()];
    let turns = turns as u32;
    let made = second::central::turns(&LANDED, &mut central, field, &mut [], turns, &mut |_| ());
    lent.result[0] = made.into();
    record::keep_central(&mut lent.record, &central);
    Ok(())
}

fn job_call(call: &Call, lent: &mut Lent, room: bool) -> Result<(), u8> {
    let mut central = central_of(&lent.record);
    let memory = &mut lent.memory;
    let made = match call {
        // A schedule of no job is number 6 where nothing before it is due, as a short result is.
        _ if !room => second::schedule(&LANDED, memory, &mut [], &mut central, &[], &[], &[])?,
        Call::Schedule {
            jobs,
            stint_jobs,
            stint_turns,
        } => second::schedule(
            &LANDED,
            memory,
            &mut [],
            &mut central,
            jobs,
            stint_jobs,
            stint_turns,
        )?,
        Call::RunProgram { address, turns } => {
            vec![second::stint(
                &LANDED,
                memory,
                &mut [],
                &mut central,
                *address,
                *turns,
            )?]
        }
        _ => unreachable!("the other calls run no job"),
    };
    for (pair, Made { turns, stop }) in lent.result.chunks_exact_mut(2).zip(made) {
        pair.copy_from_slice(&[turns.into(), stop.into()]);
    }
    record::keep_central(&mut lent.record, &central);
    Ok(())
}

/// The parts of a machine record. One of another length becomes one over its width. So does one
/// whose processors without memory are at fault: the second emulator is lent the others alone.
fn parts_of(flat: &[u64], count: usize) -> Parts {
    if flat.len() != MACHINE_NUMBERS {
        let mut over = [0; MACHINE_NUMBERS];
        over[P] = u64::MAX;
        return Parts::of(&over);
    }
    let mut parts = Parts::of(flat);
    if !parts.processors[count..]
        .iter()
        .all(|processor| processor.fits(&LANDED))
    {
        parts.clock = u16::MAX;
    }
    parts
}

fn machine_call(call: &Call, lent: &mut Lent, room: bool) -> Result<(), u8> {
    let count = (lent.peripheral.len() / second::peripheral::WORDS).min(PROCESSORS);
    let mut parts = parts_of(&lent.record, count);
    let mut machine = Machine {
        memory: &mut lent.memory,
        extended: &mut [],
        central: &mut parts.central,
        peripheral: &mut lent.peripheral,
        processors: &mut parts.processors[..count],
        channels: &mut parts.channels,
        clock: &mut parts.clock,
    };
    match call {
        Call::PeripheralTurn { processor } => {
            second::peripheral_turn(&LANDED, &mut machine, *processor as usize)?
        }
        Call::Run { rounds } if room => {
            lent.result[0] = second::run(&LANDED, &mut machine, *rounds)?
        }
        _ => {
            // A run of no rounds changes nothing and meets numbers 1 to 5.
            second::run(&LANDED, &mut machine, 0)?;
            return Err(6);
        }
    }
    parts.keep(&mut lent.record);
    Ok(())
}

fn device_call(call: &Call, lent: &mut Lent, room: bool) -> Result<(), u8> {
    if lent.record.len() != call.record_length() {
        return Err(5);
    }
    let mut channel = record::channel(&lent.record);
    match call {
        Call::Put { word } => second::put(&mut channel, record::to_u16(*word))?,
        Call::Take if room => {
            let mark = channel.function;
            let word = second::take(&mut channel)?;
            lent.result[..2].copy_from_slice(&[word.into(), mark.into()]);
        }
        _ => second::drop_channel(&mut channel)?,
    }
    if matches!(call, Call::Take) && !room {
        return Err(6);
    }
    record::keep_channel(&mut lent.record, &channel);
    Ok(())
}
