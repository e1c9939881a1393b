//! The instruction that a peripheral processor is about to run, read from what is lent.

use super::channel_state::ChannelState;
use super::WORDS;
use crate::case::Lent;
use crate::values::ONES_12;
use tozhenab::layout::{self, CHANNELS, PROCESSOR_A, PROCESSOR_P, PROCESSOR_STOP};

/// The words of a processor at P, and A.
pub struct Instruction<'a> {
    pub p: u64,
    pub a: u64,
    pub code: usize,
    pub d: usize,
    /// The word after it, whether the code has one or not.
    pub m: u64,
    /// The processor's memory.
    own: &'a [u16],
}

/// The codes that take m + (d).
pub const INDEXED: [usize; 10] = [0o01, 0o02, 0o50, 0o51, 0o52, 0o53, 0o54, 0o55, 0o56, 0o57];

/// What m + (d) comes to.
#[derive(Clone, Copy)]
pub enum IndexSum {
    Below7777,
    Exactly7777,
    CarriedRound,
}

/// The address of a sum of m and (d): above 7777 it loses 10000 and gains one.
fn carried_round(sum: u64) -> u64 {
    if sum > 0o7777 {
        sum - 0o10000 + 1
    } else {
        sum
    }
}

impl<'a> Instruction<'a> {
    /// The instruction at P of a processor; none where it is stopped.
    pub fn of(lent: &'a Lent, processor: usize) -> Option<Instruction<'a>> {
        let record = &lent.record[layout::processor(processor)..];
        let own = &lent.peripheral[WORDS * processor..][..WORDS];
        (record[PROCESSOR_STOP] == 0).then(|| {
            let (p, a) = (record[PROCESSOR_P], record[PROCESSOR_A]);
            Instruction::at(own, p, a)
        })
    }

    /// The instruction at an address.
    pub fn at(own: &'a [u16], p: u64, a: u64) -> Instruction<'a> {
        let word = usize::from(own[p as usize]);
        Instruction {
            p,
            a,
            code: word >> 6,
            d: word & 0o77,
            m: own[((p + 1) & ONES_12) as usize].into(),
            own,
        }
    }

    fn is_indexed(&self) -> bool {
        INDEXED.contains(&self.code)
    }

    /// m + (d) of a code that takes it, before it carries round; none for d = 0, where m stands alone.
    pub fn indexed_sum(&self) -> Option<u64> {
        (self.is_indexed() && self.d != 0).then(|| self.m + u64::from(self.own[self.d]))
    }

    /// What m + (d) comes to, where the instruction tells it from another rule: from m alone, from
    /// 7777 taken as 0, from a carry that is lost. The jumps do by the address, the others by its word.
    pub fn index_sum(&self) -> Option<IndexSum> {
        let sum = self.indexed_sum()?;
        let (comes_to, by_another_rule) = match sum {
            0..=0o7776 => (IndexSum::Below7777, self.m),
            0o7777 => (IndexSum::Exactly7777, 0),
            _ => (IndexSum::CarriedRound, sum - 0o10000),
        };
        let address = carried_round(sum);
        let tells = match self.code {
            0o01 | 0o02 => address != by_another_rule,
            _ => self.word(address) != self.word(by_another_rule),
        };
        tells.then_some(comes_to)
    }

    /// A code that could take m + (d) and has d = 0.
    pub fn is_without_index(&self) -> bool {
        self.is_indexed() && self.d == 0
    }

    /// A word of the processor's memory.
    pub fn word(&self, address: u64) -> u16 {
        self.own[address as usize]
    }

    /// The address that codes 01, 02 and 30 to 57 work on.
    pub fn address(&self) -> Option<u64> {
        match self.code {
            0o30..=0o37 => Some(self.d as u64),
            0o40..=0o47 => Some(self.own[self.d].into()),
            _ if self.is_indexed() => Some(self.indexed_sum().map_or(self.m, carried_round)),
            _ => None,
        }
    }

    /// The word that codes 30 to 57 work on.
    pub fn operand(&self) -> Option<u16> {
        match self.code {
            0o30..=0o57 => self.address().map(|at| self.word(at)),
            _ => None,
        }
    }

    /// Where 03 to 07 jump to, not yet modulo 4,096: below 0 or above 7777 it goes round.
    pub fn short_target(&self) -> Option<i64> {
        let (p, d) = (self.p as i64, self.d as i64);
        let target = if d < 0o40 { p + d } else { p - (0o77 - d) };
        matches!(self.code, 0o03..=0o07).then_some(target)
    }

    /// The state of the channel of a code from 64 up; none for channel 14 and above.
    pub fn channel(&self, record: &[u64]) -> Option<ChannelState> {
        let held = self.code >= 0o64 && self.d < CHANNELS;
        held.then(|| ChannelState::of(record, self.d))
    }

    /// Whether 04 to 07, and 64 to 67 on a channel below 14, jump. None where the target is the next
    /// instruction, which tells nothing.
    pub fn jumps(&self, record: &[u64]) -> Option<bool> {
        let is_minus = self.a >> 17 == 1;
        let taken = match self.code {
            0o04 => self.a == 0,
            0o05 => self.a != 0,
            0o06 => !is_minus,
            0o07 => is_minus,
            0o64..=0o67 => self.channel(record)?.jumps(self.code),
            _ => return None,
        };
        let tells = match self.short_target() {
            Some(target) => target != self.p as i64 + 1,
            None => self.m != (self.p + 2) & ONES_12,
        };
        tells.then_some(taken)
    }
}
