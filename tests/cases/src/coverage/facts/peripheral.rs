//! The peripheral processors.

use crate::case::Call;
use crate::coverage::Seen;
use crate::peripheral::instruction::Instruction;
use crate::peripheral::WORDS;
use crate::values::{ONES_12, ONES_18};
use tozhenab::layout::{self, PROCESSOR_STOP};

/// Processors and their instructions.
impl Seen<'_> {
    pub fn asks_absent_processor(&self) -> bool {
        let length = self.case.lent.peripheral.len();
        match self.case.call {
            Call::PeripheralTurn { processor } => {
                length > 0 && length.is_multiple_of(WORDS) && processor >= (length / WORDS) as u64
            }
            _ => false,
        }
    }

    /// The processor whose turn was carried out.
    fn turned_processor(&self) -> Option<usize> {
        match self.case.call {
            Call::PeripheralTurn { processor } if self.number == 0 => Some(processor as usize),
            _ => None,
        }
    }

    pub fn turned_stopped_processor(&self) -> bool {
        let stop = |n| self.case.lent.record[layout::processor(n) + PROCESSOR_STOP];
        self.turned_processor().is_some_and(|n| stop(n) != 0)
    }

    /// The instruction of the running processor whose turn was carried out.
    pub fn instruction(&self) -> Option<Instruction<'_>> {
        Instruction::of(&self.case.lent, self.turned_processor()?)
    }

    /// Whether a peripheral turn ran an instruction of which this holds.
    pub fn ran_instruction(&self, holds: impl Fn(&Instruction) -> bool) -> bool {
        self.instruction().is_some_and(|ran| holds(&ran))
    }
}

/// Instructions of one code.
impl Seen<'_> {
    pub fn ran_word(&self, code: usize, d: usize) -> bool {
        self.ran_instruction(|ran| ran.code == code && ran.d == d)
    }

    /// A jump with this A whose target is not the next instruction.
    pub fn tried_jump(&self, code: usize, a: u64) -> bool {
        let record = &self.case.lent.record;
        self.ran_instruction(|ran| ran.code == code && ran.a == a && ran.jumps(record).is_some())
    }

    /// SHN of an A that is neither zero.
    pub fn shifted(&self, d: usize) -> bool {
        self.ran_word(0o10, d) && self.ran_instruction(|ran| ran.a != 0 && ran.a != ONES_18)
    }

    pub fn added(&self, code: usize, d: usize, a: u64) -> bool {
        self.ran_word(code, d) && self.ran_instruction(|ran| ran.a == a)
    }

    /// A code from 30 to 57 whose word of memory is this one.
    pub fn worked_on(&self, code: usize, word: u16) -> bool {
        self.ran_instruction(|ran| ran.code == code && ran.operand() == Some(word))
    }

    /// A code that adds this m and this (d).
    pub fn indexed(&self, m: u64, index: u64) -> bool {
        self.ran_instruction(|ran| ran.m == m && ran.indexed_sum() == Some(m + index))
    }

    /// 02 to an address so far from its own.
    pub fn returned_onto(&self, distance: u64) -> bool {
        let onto = |ran: &Instruction| ran.address() == Some((ran.p + distance) & ONES_12);
        self.ran_instruction(|ran| ran.code == 0o02 && onto(ran))
    }

    /// A code that reaches central memory, with an A so far from its length.
    pub fn reached_end(&self, code: usize, distance: i64) -> bool {
        let address = self.case.lent.memory.len() as i64 + distance;
        self.ran_instruction(|ran| ran.code == code && ran.a as i64 == address)
    }

    /// A code on a channel below 14 of whose numbers this holds.
    pub fn ran_on_channel(&self, code: usize, holds: impl Fn(&[u64]) -> bool) -> bool {
        let record = &self.case.lent.record;
        let held = |ran: &Instruction| ran.channel(record).is_some();
        self.ran_instruction(|ran| {
            ran.code == code && held(ran) && holds(&record[layout::channel(ran.d)..])
        })
    }
}
