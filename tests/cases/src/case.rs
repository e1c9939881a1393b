//! A case: one call, and all that the host lends to it.

use tozhenab::layout::{CENTRAL_NUMBERS, CHANNEL_NUMBERS, MACHINE_NUMBERS};

/// The calls, with what each is asked.
#[derive(Clone, Debug)]
pub enum Call {
    CentralTurn,
    CentralTurns {
        turns: u64,
    },
    Exchange {
        address: u64,
    },
    RunProgram {
        address: u64,
        turns: u64,
    },
    Schedule {
        jobs: Vec<u64>,
        stint_jobs: Vec<u64>,
        stint_turns: Vec<u64>,
    },
    PeripheralTurn {
        processor: u64,
    },
    Run {
        rounds: u64,
    },
    Put {
        word: u64,
    },
    Take,
    Drop,
}

/// The names of the calls, in the order of `Call::place`.
pub const NAMES: [&str; 10] = [
    "central_turn",
    "central_turns",
    "exchange",
    "run_program",
    "schedule",
    "peripheral_turn",
    "run",
    "put",
    "take",
    "drop",
];

/// The refusals that each call can give. Number 16 is the console program's.
pub const REFUSALS: [&[u64]; 10] = [
    &[1, 3, 5],
    &[1, 3, 5, 6, 8],
    &[1, 3, 5, 9, 10, 11],
    &[1, 3, 5, 6, 8, 9, 10, 11, 12],
    &[1, 3, 5, 6, 7, 8, 9, 10, 11, 12],
    &[1, 2, 3, 4, 5],
    &[1, 2, 3, 4, 5, 6, 8],
    &[5, 13, 14],
    &[5, 6, 15],
    &[5],
];

impl Call {
    /// Its place among the calls.
    pub fn place(&self) -> usize {
        match self {
            Call::CentralTurn => 0,
            Call::CentralTurns { .. } => 1,
            Call::Exchange { .. } => 2,
            Call::RunProgram { .. } => 3,
            Call::Schedule { .. } => 4,
            Call::PeripheralTurn { .. } => 5,
            Call::Run { .. } => 6,
            Call::Put { .. } => 7,
            Call::Take => 8,
            Call::Drop => 9,
        }
    }

    pub fn name(&self) -> &'static str {
        NAMES[self.place()]
    }

    /// The refusals that it can give, lowest first.
    pub fn refusals(&self) -> &'static [u64] {
        REFUSALS[self.place()]
    }

    /// The numbers of the record that it takes.
    pub fn record_length(&self) -> usize {
        match self {
            Call::CentralTurn
            | Call::CentralTurns { .. }
            | Call::Exchange { .. }
            | Call::RunProgram { .. }
            | Call::Schedule { .. } => CENTRAL_NUMBERS,
            Call::PeripheralTurn { .. } | Call::Run { .. } => MACHINE_NUMBERS,
            Call::Put { .. } | Call::Take | Call::Drop => CHANNEL_NUMBERS,
        }
    }

    /// The numbers of the result that it gives.
    pub fn result_length(&self) -> usize {
        match self {
            Call::RunProgram { .. } | Call::Take => 2,
            Call::Schedule { stint_jobs, .. } => 2 * stint_jobs.len(),
            Call::CentralTurns { .. } | Call::Run { .. } => 1,
            _ => 0,
        }
    }

    /// Whether its result holds counts, which are 0 after a refusal. What a take gives are none: its
    /// result is left as it was.
    pub fn gives_counts(&self) -> bool {
        !matches!(self, Call::Take)
    }
}

/// What the host lends; memories that the call does not take are empty.
#[derive(Clone, Debug, Default, PartialEq, Eq)]
pub struct Lent {
    pub memory: Vec<u64>,
    pub peripheral: Vec<u16>,
    pub record: Vec<u64>,
    pub result: Vec<u64>,
}

impl Lent {
    /// Takes the values of another, in the room that is there already.
    pub fn copy_from(&mut self, other: &Lent) {
        self.memory.clone_from(&other.memory);
        self.peripheral.clone_from(&other.peripheral);
        self.record.clone_from(&other.record);
        self.result.clone_from(&other.result);
    }
}

/// A call, what is lent to it, and the numbers whose conditions were brought about on purpose.
#[derive(Clone, Debug)]
pub struct Case {
    pub call: Call,
    pub lent: Lent,
    pub faults: Vec<u64>,
}
