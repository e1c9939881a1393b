//! Peripheral turns, from the state before them.

use super::Condition;
use crate::coverage::Seen;
use crate::package::is_sound;
use crate::values::ONES_18;
use tozhenab::layout::{MARK, STOP};

pub const CONDITIONS: &[Condition] = &[
    ("a turn of a stopped peripheral processor", |s| {
        s.turned_stopped_processor()
    }),
    ("a peripheral instruction at 7777", |s| {
        s.ran_instruction(|ran| ran.p == 0o7777)
    }),
    ("03 forward past 7777", |s| {
        s.ran_instruction(|ran| {
            ran.code == 0o03 && ran.short_target().is_some_and(|to| to > 0o7777)
        })
    }),
    ("03 back past 0", |s| {
        s.ran_instruction(|ran| ran.code == 0o03 && ran.short_target().is_some_and(|to| to < 0))
    }),
    ("03 with d = 37", |s| s.ran_word(0o03, 0o37)),
    ("03 with d = 40", |s| s.ran_word(0o03, 0o40)),
    ("04 of 777777", |s| s.tried_jump(0o04, ONES_18)),
    ("05 of 777777", |s| s.tried_jump(0o05, ONES_18)),
    ("06 of 777777", |s| s.tried_jump(0o06, ONES_18)),
    ("07 of 777777", |s| s.tried_jump(0o07, ONES_18)),
    ("SHN 37", |s| s.shifted(0o37)),
    ("SHN 40", |s| s.shifted(0o40)),
    ("SHN 77", |s| s.shifted(0o77)),
    ("ADN 0 of 777777", |s| s.added(0o16, 0, ONES_18)),
    ("SBN 0 of 777777", |s| s.added(0o17, 0, ONES_18)),
    ("ADN 1 of 777776", |s| s.added(0o16, 1, ONES_18 - 1)),
    ("SBN 1 of 0", |s| s.added(0o17, 1, 0)),
    ("36 of 7777", |s| s.worked_on(0o36, 0o7777)),
    ("46 of 7777", |s| s.worked_on(0o46, 0o7777)),
    ("56 of 7777", |s| s.worked_on(0o56, 0o7777)),
    ("37 of 0", |s| s.worked_on(0o37, 0)),
    ("47 of 0", |s| s.worked_on(0o47, 0)),
    ("57 of 0", |s| s.worked_on(0o57, 0)),
    ("02 to 7777", |s| {
        s.ran_instruction(|ran| ran.code == 0o02 && ran.address() == Some(0o7777))
    }),
    ("02 onto its own second word", |s| s.returned_onto(1)),
    ("02 onto its own first word", |s| s.returned_onto(0)),
    ("m + (d) of 10000", |s| {
        s.ran_instruction(|ran| ran.indexed_sum() == Some(0o10000))
    }),
    ("m + (d) with 0 and 7777", |s| s.indexed(0, 0o7777)),
    ("m + (d) with 7777 and 7777", |s| s.indexed(0o7777, 0o7777)),
    ("m + (d) with 0 and 7776", |s| s.indexed(0, 0o7776)),
    ("m + (d) with 1 and 7776", |s| s.indexed(1, 0o7776)),
    ("m + (d) with 2 and 7776", |s| s.indexed(2, 0o7776)),
    ("m + (d) with 0100 and 7776", |s| s.indexed(0o100, 0o7776)),
    ("m + (d) with 7777 and 7776", |s| s.indexed(0o7777, 0o7776)),
    ("m alone, and word 0 not 0", |s| {
        s.ran_instruction(|ran| ran.is_without_index() && ran.word(0) != 0)
    }),
    ("60 at the last word", |s| s.reached_end(0o60, -1)),
    ("60 at the length", |s| s.reached_end(0o60, 0)),
    ("62 at the last word", |s| s.reached_end(0o62, -1)),
    ("62 at the length", |s| s.reached_end(0o62, 0)),
    ("26 at the last sixteen words", |s| {
        exchanged(s) && s.reached_end(0o26, -16)
    }),
    ("26 one word past them", |s| s.reached_end(0o26, -15)),
    ("26 with the central processor stopped", |s| {
        exchanged(s) && s.case.lent.record[STOP] != 0
    }),
    ("70 of a function", |s| {
        s.ran_on_channel(0o70, |own| own[..=MARK] == [1, 1, 1])
    }),
];

/// A 26 at a sound package.
fn exchanged(s: &Seen) -> bool {
    s.ran_instruction(|ran| ran.code == 0o26 && is_sound(&s.case.lent.memory, ran.a))
}
