//! What is lent: records, results and memories.

use super::Condition;
use crate::peripheral::WORDS;
use tozhenab::layout::PROCESSORS;
use tozhenab::limits::MOST_WORDS;

pub const CONDITIONS: &[Condition] = &[
    ("5: a record of another length", |s| {
        s.number == 5 && s.has_another_length()
    }),
    ("5: a channel's flag over 1", |s| {
        s.number == 5 && s.has_flag_over_1()
    }),
    ("5: a value of more than 32 bits", |s| {
        s.number == 5 && s.is_very_wide()
    }),
    ("5: a central stop of 6", |s| s.refused_stop() == Some(6)),
    ("5: a central stop of 9", |s| s.refused_stop() == Some(9)),
    ("5: a central stop above 9", |s| s.refused_stop() > Some(9)),
    ("a record with stop 7, carried out", |s| s.holds_stop(7)),
    ("a record with stop 8, carried out", |s| s.holds_stop(8)),
    ("6: a short result", |s| {
        s.number == 6 && s.has_short_result()
    }),
    ("6: a short result, and a later refusal due", |s| {
        s.number == 6 && s.has_short_result() && s.case.faults.iter().any(|&fault| fault > 6)
    }),
    ("1 to 5, and a short result", |s| {
        (1..6).contains(&s.number) && s.has_short_result()
    }),
    ("a result with room to spare, carried out", |s| {
        s.number == 0 && s.has_spare_result()
    }),
    ("a result with room to spare, refused", |s| {
        s.number > 0 && s.has_spare_result()
    }),
    ("1: no central memory", |s| {
        s.number == 1 && s.case.lent.memory.is_empty()
    }),
    ("1: 131,073 words", |s| {
        s.number == 1 && s.case.lent.memory.len() == MOST_WORDS + 1
    }),
    ("131,072 words", |s| {
        s.number == 0 && s.case.lent.memory.len() == MOST_WORDS
    }),
    ("one word", |s| {
        s.number == 0 && s.case.lent.memory.len() == 1
    }),
    ("2: no peripheral memory", |s| {
        s.number == 2 && s.case.lent.peripheral.is_empty()
    }),
    ("2: eleven processors", |s| {
        s.number == 2 && s.case.lent.peripheral.len() == (PROCESSORS + 1) * WORDS
    }),
    ("2: a part of a processor's memory", |s| {
        s.number == 2 && s.case.lent.peripheral.len() % WORDS != 0
    }),
    ("2: no such processor", |s| {
        s.number == 2 && s.asks_absent_processor()
    }),
    ("ten processors", |s| {
        s.number == 0 && s.case.lent.peripheral.len() == PROCESSORS * WORDS
    }),
];
