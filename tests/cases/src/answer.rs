//! What came of a case, as one line of text: its index, its call, the number given, and each
//! element of what was lent that is another after the call. All but the index is octal.

use crate::case::{Case, Lent};
use std::fmt::Write;

/// The line of a case, without a line feed.
pub fn line(index: u64, case: &Case, number: u64, after: &Lent) -> String {
    let before = &case.lent;
    let mut text = format!("{index} {} {number:o}", case.call.name());
    write_changes(&mut text, "result", &before.result, &after.result);
    write_changes(&mut text, "record", &before.record, &after.record);
    write_changes(&mut text, "central", &before.memory, &after.memory);
    write_changes(
        &mut text,
        "peripheral",
        &before.peripheral,
        &after.peripheral,
    );
    text
}

fn write_changes<T: Copy + PartialEq + Into<u64>>(
    text: &mut String,
    name: &str,
    before: &[T],
    after: &[T],
) {
    if before == after {
        return;
    }
    text.push(' ');
    text.push_str(name);
    let changed = before
        .iter()
        .zip(after)
        .enumerate()
        .filter(|(_, (b, a))| b != a);
    for (place, (_, &value)) in changed {
        let value: u64 = value.into();
        write!(text, " {place:o}={value:o}").expect("a string takes any text");
    }
}
