//! The calls over records with named fields.

use crate::flat;
use crate::layout::{CENTRAL_NUMBERS, CHANNEL_NUMBERS, MACHINE_NUMBERS};
use crate::record::{CentralRecord, Channel, MachineRecord};
use crate::refusal::Refusal;

/// What the run of a program, or a stint, gives.
#[derive(Clone, Copy, Debug, Default, PartialEq, Eq)]
pub struct Ran {
    /// The turns made, the stopping one included.
    pub turns: u64,
    /// The stop, 1 to 5, 7 or 8, or 0 where the turns were used up.
    pub stop: u64,
}

/// A stint of a schedule.
#[derive(Clone, Copy, Debug, Default, PartialEq, Eq)]
pub struct Stint {
    /// The job, by its place in the list of jobs, from 0.
    pub job: u64,
    /// The turns asked.
    pub turns: u64,
}

/// What a device takes from a channel.
#[derive(Clone, Copy, Debug, Default, PartialEq, Eq)]
pub struct Taken {
    /// The word, 12 bits.
    pub word: u64,
    /// Whether it is a function.
    pub mark: bool,
}

/// The number that a call gave, which is 0 or that of a refusal.
fn accepted(number: u64) -> Result<(), Refusal> {
    match number {
        0 => Ok(()),
        _ => Err(Refusal::from_number(number).expect("a call gives 0 to 15")),
    }
}

/// One turn of the central processor on its field; nothing changes where it is stopped. For more
/// than one, [`central_turns`].
pub fn central_turn(memory: &mut [u64], record: &mut CentralRecord) -> Result<(), Refusal> {
    let mut numbers: [u64; CENTRAL_NUMBERS] = (*record).into();
    accepted(flat::central_turn(memory, &mut numbers))?;
    *record = numbers.into();
    Ok(())
}

/// Up to so many turns of the central processor on its field, as the record stands, and the number
/// of turns made, the stopping one included. They end early at a stop; a stopped processor makes
/// none, and nothing changes. n turns and then k are n + k.
///
/// Every call tests all the memory that it is lent: step in batches.
pub fn central_turns(
    memory: &mut [u64],
    record: &mut CentralRecord,
    turns: u64,
) -> Result<u64, Refusal> {
    let mut numbers: [u64; CENTRAL_NUMBERS] = (*record).into();
    let mut result = [0];
    accepted(flat::central_turns(
        memory,
        &mut numbers,
        turns,
        &mut result,
    ))?;
    *record = numbers.into();
    Ok(result[0])
}

/// An exchange jump: swaps the package at the address with the registers and sets the central
/// processor running.
pub fn exchange(
    memory: &mut [u64],
    record: &mut CentralRecord,
    address: u64,
) -> Result<(), Refusal> {
    let mut numbers: [u64; CENTRAL_NUMBERS] = (*record).into();
    accepted(flat::exchange(memory, &mut numbers, address))?;
    *record = numbers.into();
    Ok(())
}

/// Runs the program of the package at the address: exchanges in, makes up to so many turns on its
/// field, ends early at a stop, exchanges out. The central record is left as it was.
pub fn run_program(
    memory: &mut [u64],
    record: &CentralRecord,
    address: u64,
    turns: u64,
) -> Result<Ran, Refusal> {
    let numbers: [u64; CENTRAL_NUMBERS] = (*record).into();
    let mut result = [0; 2];
    accepted(flat::run_program(
        memory,
        &numbers,
        address,
        turns,
        &mut result,
    ))?;
    let [turns, stop] = result;
    Ok(Ran { turns, stop })
}

/// Runs 1 to [`MOST_JOBS`](crate::limits::MOST_JOBS) programs in one memory, whose packages are at
/// the addresses in `jobs`, by up to [`MOST_STINTS`](crate::limits::MOST_STINTS) stints in the order
/// listed, and tells of each stint what it made. The central record is left as it was.
pub fn schedule(
    memory: &mut [u64],
    record: &CentralRecord,
    jobs: &[u64],
    stints: &[Stint],
) -> Result<Vec<Ran>, Refusal> {
    let numbers: [u64; CENTRAL_NUMBERS] = (*record).into();
    let stint_jobs: Vec<u64> = stints.iter().map(|stint| stint.job).collect();
    let stint_turns: Vec<u64> = stints.iter().map(|stint| stint.turns).collect();
    let mut result = vec![0; 2 * stints.len()];
    accepted(flat::schedule(
        memory,
        &numbers,
        jobs,
        &stint_jobs,
        &stint_turns,
        &mut result,
    ))?;
    let ran = |pair: &[u64]| Ran {
        turns: pair[0],
        stop: pair[1],
    };
    Ok(result.chunks_exact(2).map(ran).collect())
}

/// One turn of the peripheral processor of this number, from 0; nothing changes where it is
/// stopped. Peripheral memory has 4,096 words for each of 1 to 10 processors, in order.
pub fn peripheral_turn(
    central: &mut [u64],
    peripheral: &mut [u16],
    record: &mut MachineRecord,
    processor: u64,
) -> Result<(), Refusal> {
    let mut numbers: [u64; MACHINE_NUMBERS] = (*record).into();
    accepted(flat::peripheral_turn(
        central,
        peripheral,
        &mut numbers,
        processor,
    ))?;
    *record = numbers.try_into()?;
    Ok(())
}

/// Up to so many rounds, and the number of rounds made. A round is a turn of each peripheral
/// processor, a central turn, and the clock. The run ends early before a round in which all are
/// stopped.
pub fn run(
    central: &mut [u64],
    peripheral: &mut [u16],
    record: &mut MachineRecord,
    rounds: u64,
) -> Result<u64, Refusal> {
    let mut numbers: [u64; MACHINE_NUMBERS] = (*record).into();
    let mut result = [0];
    accepted(flat::run(
        central,
        peripheral,
        &mut numbers,
        rounds,
        &mut result,
    ))?;
    *record = numbers.try_into()?;
    Ok(result[0])
}

/// A device puts a word on an active, empty channel.
pub fn put(channel: &mut Channel, word: u64) -> Result<(), Refusal> {
    let mut numbers: [u64; CHANNEL_NUMBERS] = (*channel).into();
    accepted(flat::put(&mut numbers, word))?;
    *channel = numbers.try_into()?;
    Ok(())
}

/// A device takes the word of an active, full channel and empties it. Taking a function also makes
/// the channel inactive.
pub fn take(channel: &mut Channel) -> Result<Taken, Refusal> {
    let mut numbers: [u64; CHANNEL_NUMBERS] = (*channel).into();
    let mut result = [0; 2];
    accepted(flat::take(&mut numbers, &mut result))?;
    *channel = numbers.try_into()?;
    let [word, mark] = result;
    Ok(Taken {
        word,
        mark: mark != 0,
    })
}

/// A device makes a channel inactive and empty, whatever it holds.
pub fn drop(channel: &mut Channel) -> Result<(), Refusal> {
    let mut numbers: [u64; CHANNEL_NUMBERS] = (*channel).into();
    accepted(flat::drop(&mut numbers))?;
    *channel = numbers.try_into()?;
    Ok(())
}
