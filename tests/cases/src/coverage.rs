//! Counts of what the cases met, and what has to be met.
//!
//! Refusals and stops are counted by what a call gave. Codes are counted in the turns of
//! `central_turn` and `peripheral_turn` alone, from the state before the turn: of a central word the
//! first instruction, and those after it as long as nothing before them can have ended the turn; of
//! a peripheral processor the instruction at P, with its A, its words and its channel. What a run
//! began with is counted from the state before it too.

use crate::case::{Call, Case, Lent, NAMES, REFUSALS};
use std::fmt;
use tozhenab::layout::{self, PROCESSORS, PROCESSOR_STOP, STOP};

mod central_codes;
mod conditions;
mod facts;
mod floating;
mod nominal_shifts;
mod peripheral_codes;
mod table;

use central_codes::CentralCodes;
use conditions::conditions;
use floating::FloatingCodes;
use nominal_shifts::NominalShifts;
use peripheral_codes::PeripheralCodes;

/// Central stops, then peripheral ones.
const STOPS: [u64; 13] = [1, 2, 3, 4, 5, 7, 8, 31, 32, 33, 34, 35, 36];

/// A case and what came of it.
pub struct Seen<'a> {
    pub case: &'a Case,
    pub number: u64,
    pub after: &'a Lent,
}

/// The counts.
pub struct Coverage {
    /// By call and number; number 0 is a call that was carried out.
    numbers: [[u64; 16]; NAMES.len()],
    /// By call: refused although a later refusal was brought about as well.
    lowest_first: [u64; NAMES.len()],
    /// By call and place in `STOPS`.
    stops: [[u64; STOPS.len()]; NAMES.len()],
    central: CentralCodes,
    nominal_shifts: NominalShifts,
    floating: FloatingCodes,
    peripheral: PeripheralCodes,
    /// In the order of `conditions`.
    conditions: Vec<u64>,
}

/// The places in `STOPS` that a call can give.
fn stops_of(call: usize) -> std::ops::Range<usize> {
    match NAMES[call] {
        "central_turn" | "central_turns" | "run_program" | "schedule" => 0..7,
        "peripheral_turn" => 7..13,
        "run" => 0..13,
        _ => 0..0,
    }
}

impl Coverage {
    pub fn new() -> Coverage {
        Coverage {
            numbers: [[0; 16]; NAMES.len()],
            lowest_first: [0; NAMES.len()],
            stops: [[0; STOPS.len()]; NAMES.len()],
            central: CentralCodes::new(),
            nominal_shifts: NominalShifts::new(),
            floating: FloatingCodes::new(),
            peripheral: PeripheralCodes::new(),
            conditions: conditions().map(|_| 0).collect(),
        }
    }

    /// Counts one case.
    pub fn count(&mut self, seen: &Seen) {
        let call = seen.case.call.place();
        self.numbers[call][seen.number as usize & 15] += 1;
        for (count, (_, holds)) in self.conditions.iter_mut().zip(conditions()) {
            *count += u64::from(holds(seen));
        }
        if seen.number == 0 {
            self.count_stops(seen);
            self.central.count(seen);
            self.nominal_shifts.count(seen);
            self.floating.count(seen);
            self.peripheral.count(seen);
        } else if seen.case.faults.iter().any(|&fault| fault > seen.number) {
            self.lowest_first[call] += 1;
        }
    }

    fn count_stops(&mut self, seen: &Seen) {
        let (before, after) = (&seen.case.lent, seen.after);
        let mut count = |stop: u64| {
            if let Some(place) = STOPS.iter().position(|&listed| listed == stop) {
                self.stops[seen.case.call.place()][place] += 1;
            }
        };
        let mut changed = |at: usize| {
            if before.record[at] == 0 {
                count(after.record[at]);
            }
        };
        match &seen.case.call {
            Call::CentralTurn | Call::CentralTurns { .. } => changed(STOP),
            Call::PeripheralTurn { processor } => {
                changed(layout::processor(*processor as usize) + PROCESSOR_STOP)
            }
            Call::Run { .. } => {
                changed(STOP);
                (0..PROCESSORS).for_each(|n| changed(layout::processor(n) + PROCESSOR_STOP));
            }
            Call::RunProgram { .. } | Call::Schedule { .. } => {
                let ran = &after.result[..seen.case.call.result_length()];
                ran.chunks_exact(2).for_each(|pair| count(pair[1]));
            }
            _ => {}
        }
    }

    /// Everything that has to be met and was not.
    pub fn missing(&self) -> Vec<String> {
        let mut missing = Vec::new();
        self.required(&mut |name, count| {
            if count == 0 {
                missing.push(name.to_string());
            }
        });
        missing
    }

    /// What was met least often of all that has to be, and how often.
    pub fn rarest(&self, most: usize) -> Vec<(u64, String)> {
        let mut counts = Vec::new();
        self.required(&mut |name, count| counts.push((count, name.to_string())));
        counts.sort();
        counts.truncate(most);
        counts
    }

    /// How much was met of what has to be, each thing up to `enough` times.
    pub fn met(&self, enough: u64) -> u64 {
        let mut met = 0;
        self.required(&mut |_, count| met += count.min(enough));
        met
    }

    /// Each thing that has to be met, and its count.
    fn required(&self, see: &mut dyn FnMut(fmt::Arguments, u64)) {
        for (call, name) in NAMES.iter().enumerate() {
            for &number in [0].iter().chain(REFUSALS[call]) {
                let count = self.numbers[call][number as usize];
                see(format_args!("{name}: number {number}"), count);
            }
            for place in stops_of(call) {
                let stop = STOPS[place];
                see(format_args!("{name}: stop {stop}"), self.stops[call][place]);
            }
            if REFUSALS[call].len() > 1 {
                see(
                    format_args!("{name}: two refusals due"),
                    self.lowest_first[call],
                );
            }
        }
        for (&count, (name, _)) in self.conditions.iter().zip(conditions()) {
            see(format_args!("{name}"), count);
        }
        self.central.required(see);
        self.nominal_shifts.required(see);
        self.floating.required(see);
        self.peripheral.required(see);
    }
}

impl Default for Coverage {
    fn default() -> Self {
        Coverage::new()
    }
}
