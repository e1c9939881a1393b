//! Programs and schedules.

use crate::case::Call;
use crate::coverage::Seen;
use tozhenab::limits::MOST_JOBS;

impl Seen<'_> {
    /// The number of jobs of a schedule.
    pub fn jobs(&self) -> Option<usize> {
        match &self.case.call {
            Call::Schedule { jobs, .. } => Some(jobs.len()),
            _ => None,
        }
    }

    /// Number 6 for so many jobs over the limit, where nothing else is at fault.
    pub fn has_jobs_too_many(&self, more: usize) -> bool {
        self.has_wrong_lists()
            && self.case.faults.is_empty()
            && self.jobs() == Some(MOST_JOBS + more)
    }

    /// The lengths of the two lists of stints of a schedule.
    pub fn stints(&self) -> Option<(usize, usize)> {
        match &self.case.call {
            Call::Schedule {
                stint_jobs,
                stint_turns,
                ..
            } => Some((stint_jobs.len(), stint_turns.len())),
            _ => None,
        }
    }

    /// Number 6 for the lists of a schedule and not for its result.
    pub fn has_wrong_lists(&self) -> bool {
        self.number == 6 && !self.has_short_result()
    }

    /// The turns and the stop of a program that was run by itself.
    pub fn ran(&self) -> Option<(u64, u64)> {
        let program = matches!(self.case.call, Call::RunProgram { .. });
        (program && self.number == 0).then(|| (self.after.result[0], self.after.result[1]))
    }

    /// A stop of a stint, and turns made in a later stint of its job.
    pub fn ran_after_stop(&self) -> bool {
        let Call::Schedule {
            jobs, stint_jobs, ..
        } = &self.case.call
        else {
            return false;
        };
        let mut stopped = vec![false; jobs.len()];
        let mut stints = stint_jobs.iter().zip(self.after.result.chunks_exact(2));
        self.number == 0
            && stints.any(|(&job, ran)| {
                let again = stopped[job as usize] && ran[0] > 0;
                stopped[job as usize] |= ran[1] != 0;
                again
            })
    }
}
