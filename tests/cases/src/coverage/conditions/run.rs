//! Runs.

use super::Condition;
use tozhenab::layout::{CLOCK, STOP};

pub const CONDITIONS: &[Condition] = &[
    ("a run of all its rounds", |s| {
        s.rounds()
            .is_some_and(|(made, asked)| made == asked && asked > 1)
    }),
    (
        "a run of 20 rounds with the central processor running",
        |s| s.rounds().is_some_and(|(made, _)| made >= 20) && s.after.record[STOP] == 0,
    ),
    ("a run that ends early", |s| {
        s.rounds()
            .is_some_and(|(made, asked)| 0 < made && made < asked)
    }),
    ("a run of stopped processors", |s| {
        s.rounds()
            .is_some_and(|(made, asked)| made == 0 && asked > 0)
    }),
    ("a run that begins with an exchange", |s| {
        s.exchanged_in_run()
    }),
    (
        "a run that begins with an exchange of a stopped central processor",
        |s| s.exchanged_in_run() && s.case.lent.record[STOP] != 0,
    ),
    ("a clock that passes 7777", |s| {
        s.rounds().is_some() && s.after.record[CLOCK] < s.case.lent.record[CLOCK]
    }),
];
