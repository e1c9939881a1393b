//! Central turns and exchanges.

use super::Condition;
use tozhenab::layout::{FL, P, STOP};

pub const CONDITIONS: &[Condition] = &[
    ("a turn: RA + FL at the end of memory", |s| {
        s.is_central_turn() && s.field_ends_with_memory()
    }),
    ("a turn: P = FL - 1", |s| {
        s.is_central_turn() && s.case.lent.record[P] + 1 == s.case.lent.record[FL]
    }),
    ("a turn: P = FL", |s| {
        s.is_central_turn() && s.case.lent.record[P] == s.case.lent.record[FL]
    }),
    ("a turn of a stopped central processor", |s| {
        s.is_central_turn() && s.case.lent.record[STOP] != 0
    }),
    ("many turns ended by a stop before the last", |s| {
        s.turns().is_some_and(|(made, asked)| made < asked) && s.stops().0 == 0
    }),
    ("many turns ended by a stop in the last", |s| {
        s.turns()
            .is_some_and(|(made, asked)| made == asked && asked > 1)
            && s.stops().1 != 0
    }),
    ("many turns used up without a stop", |s| {
        s.turns()
            .is_some_and(|(made, asked)| made == asked && asked > 1)
            && s.stops().1 == 0
    }),
    ("65,535 turns made", |s| {
        s.turns().is_some_and(|(made, _)| made == 65_535)
    }),
    ("many turns of a stopped central processor", |s| {
        s.turns().is_some_and(|(_, asked)| asked > 0) && s.stops().0 != 0
    }),
    ("no turns of a running central processor", |s| {
        s.turns() == Some((0, 0)) && s.stops().0 == 0
    }),
    ("an exchange at a package in its own field", |s| {
        s.exchanged_in_field()
    }),
    ("010 to FL - 1", |s| s.direct(0o010..=0o010) == Some(-1)),
    ("010 to FL", |s| s.direct(0o010..=0o010) == Some(0)),
    ("a read at FL - 1", |s| s.direct(0o511..=0o515) == Some(-1)),
    ("a read at FL", |s| s.direct(0o511..=0o515) == Some(0)),
    ("a store at FL - 1", |s| s.direct(0o516..=0o517) == Some(-1)),
    ("a store at FL", |s| s.direct(0o516..=0o517) == Some(0)),
];
