//! Runs, by the instructions with which they begin.

use crate::case::Call;
use crate::coverage::Seen;
use crate::package::is_sound;
use crate::peripheral::channel_state::WAITING;
use crate::peripheral::instruction::Instruction;
use crate::peripheral::WORDS;

impl Seen<'_> {
    /// The rounds made and asked of a run.
    pub fn rounds(&self) -> Option<(u64, u64)> {
        match self.case.call {
            Call::Run { rounds } if self.number == 0 => Some((self.after.result[0], rounds)),
            _ => None,
        }
    }

    /// The first instruction of each processor that runs, by rising number, where the run made at
    /// least so many rounds.
    fn first_instructions(&self, least: u64) -> Vec<Instruction<'_>> {
        if self.rounds().is_none_or(|(made, _)| made < least) {
            return Vec::new();
        }
        let lent = &self.case.lent;
        let processors = 0..lent.peripheral.len() / WORDS;
        processors
            .filter_map(|n| Instruction::of(lent, n))
            .collect()
    }

    /// A run whose first turn is a 26 at a sound package. Nothing comes before it, so it exchanges.
    pub fn exchanged_in_run(&self) -> bool {
        let first = self.first_instructions(1).into_iter().next();
        first.is_some_and(|ran| ran.code == 0o26 && is_sound(&self.case.lent.memory, ran.a))
    }

    /// The code with which the lower of two running processors waits in the first round, if the first
    /// instruction of the other lets it go on in the second.
    pub fn ended_wait(&self) -> Option<usize> {
        let first = self.first_instructions(2);
        let [waiting, other] = &first[..] else {
            return None;
        };
        let wait = [waiting, other]
            .iter()
            .all(|ran| WAITING.contains(&ran.code));
        let state = waiting.channel(&self.case.lent.record)?;
        let ended = wait && other.d == waiting.d && state.wait_ended_by(waiting.code, other.code);
        ended.then_some(waiting.code)
    }
}
