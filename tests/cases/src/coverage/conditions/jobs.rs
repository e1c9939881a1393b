//! Programs and schedules.

use super::Condition;
use tozhenab::limits::{MOST_JOBS, MOST_STINTS, MOST_TURNS};

pub const CONDITIONS: &[Condition] = &[
    ("6: no job", |s| s.has_wrong_lists() && s.jobs() == Some(0)),
    ("as many jobs as there may be", |s| {
        s.number == 0 && s.jobs() == Some(MOST_JOBS)
    }),
    ("6: one job too many", |s| s.has_jobs_too_many(1)),
    ("6: two jobs too many", |s| s.has_jobs_too_many(2)),
    ("6: three jobs too many", |s| s.has_jobs_too_many(3)),
    ("6: four jobs too many", |s| s.has_jobs_too_many(4)),
    ("6: five jobs too many", |s| s.has_jobs_too_many(5)),
    ("6: six jobs too many", |s| s.has_jobs_too_many(6)),
    ("6: one stint too many", |s| {
        s.has_wrong_lists() && s.stints() == Some((MOST_STINTS + 1, MOST_STINTS + 1))
    }),
    ("as many stints as there may be", |s| {
        s.number == 0 && s.stints() == Some((MOST_STINTS, MOST_STINTS))
    }),
    ("no stint", |s| s.number == 0 && s.stints() == Some((0, 0))),
    ("6: more jobs of stints than turns", |s| {
        s.has_wrong_lists() && s.stints().is_some_and(|(jobs, turns)| jobs > turns)
    }),
    ("6: more turns of stints than jobs", |s| {
        s.has_wrong_lists() && s.stints().is_some_and(|(jobs, turns)| jobs < turns)
    }),
    ("a program that uses up 65,535 turns", |s| {
        s.ran() == Some((MOST_TURNS, 0))
    }),
    ("a program that stops after 100 turns", |s| {
        s.ran()
            .is_some_and(|(turns, stop)| turns > 100 && stop != 0)
    }),
    ("a program of 0 turns", |s| s.ran() == Some((0, 0))),
    ("a job run again after its stop", |s| s.ran_after_stop()),
];
