//! Makes the stored cases on libhost_calls.a and compares each answer with the stored one. Fails where
//! one differs, or where something that `coverage` asks for is met by none of them.

use cases::coverage::{Coverage, Seen};
use cases::{answer, archive, generate, stored};
use std::fs;
use std::process::ExitCode;

/// Differences that are printed.
const PRINTED: u64 = 5;

/// The answer of libhost_calls.a to the case of a stored line.
fn answer_to(line: &str, coverage: &mut Coverage) -> Option<String> {
    let index = line.split(' ').next()?.parse().ok()?;
    let case = generate(stored::SEED, index);
    let mut after = case.lent.clone();
    let number = archive::call(&case.call, &mut after);
    coverage.count(&Seen {
        case: &case,
        number,
        after: &after,
    });
    Some(answer::line(index, &case, number, &after))
}

fn main() -> ExitCode {
    let expected = match fs::read_to_string(stored::FILE) {
        Ok(text) => text,
        Err(error) => {
            eprintln!("{}: {error}", stored::FILE);
            return ExitCode::FAILURE;
        }
    };
    let mut coverage = Coverage::new();
    let (mut alike, mut different) = (0, 0);
    for line in expected.lines() {
        let given = answer_to(line, &mut coverage).unwrap_or_default();
        if given == line {
            alike += 1;
            continue;
        }
        different += 1;
        if different <= PRINTED {
            println!("stored: {line}\ngiven:  {given}");
        }
    }
    // Everything that a comparison has to meet is met by the stored cases too.
    let missing = coverage.missing();
    missing
        .iter()
        .for_each(|name| println!("never met: {name}"));
    for (count, name) in coverage.rarest(1) {
        println!("met least often: {name}, {count} times");
    }
    println!("stored cases: {alike} alike, {different} different");
    if different == 0 && missing.is_empty() {
        ExitCode::SUCCESS
    } else {
        ExitCode::FAILURE
    }
}
