//! Device calls.

use super::Condition;
use crate::case::Call;
use tozhenab::layout::MARK;

pub const CONDITIONS: &[Condition] = &[("a function taken", |s| {
    s.number == 0 && matches!(s.case.call, Call::Take) && s.case.lent.record[MARK] == 1
})];
