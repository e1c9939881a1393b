//! Compares every call of Tozhenab with a second emulator, on random cases.
//!
//! ```text
//! compare [SEED [CASES]]       cases 0 and up of a seed; 1 and 1,000,000 where not given
//! compare SEED --only INDEX    one case, with both answers
//! compare --store              writes the second emulator's answers to the stored cases
//! ```
//!
//! Both sides are lent the same memories, record and result slice. After each case the number given
//! and every element of all of these are compared. The exit status is 1 where a case differs or
//! something that has to be met was not.

#![forbid(unsafe_code)]

mod oracle;
mod pair;
mod record;
mod store;

use cases::coverage::{Coverage, Seen};
use cases::generate;
use pair::Pair;
use std::env;
use std::process::ExitCode;
use std::time::Instant;

/// The cases that are compared where no others are asked for.
const SEED: u64 = 1;
const CASES: u64 = 1_000_000;

/// Of what was met, so many are named that were met least often.
const RAREST: usize = 8;

/// Differences after which the comparison ends.
const MOST_DIFFERENCES: usize = 5;

/// What the command line asks for.
enum Task {
    Cases { seed: u64, cases: u64 },
    Only { seed: u64, index: u64 },
    Store,
}

fn task(arguments: &[&str]) -> Option<Task> {
    let number = |text: &str| text.parse().ok();
    Some(match arguments {
        [] => Task::Cases {
            seed: SEED,
            cases: CASES,
        },
        ["--store"] => Task::Store,
        [seed] => Task::Cases {
            seed: number(seed)?,
            cases: CASES,
        },
        [seed, "--only", index] => Task::Only {
            seed: number(seed)?,
            index: number(index)?,
        },
        [seed, cases] => Task::Cases {
            seed: number(seed)?,
            cases: number(cases)?,
        },
        _ => return None,
    })
}

/// Compares the cases of a seed and prints the counts.
fn compare(seed: u64, cases: u64) -> bool {
    let begin = Instant::now();
    let mut coverage = Coverage::new();
    let mut pair = Pair::default();
    let mut differences = 0;
    for index in 0..cases {
        let case = generate(seed, index);
        let number = pair.make(&case);
        if let Some(difference) = pair.difference(&case) {
            println!("different: compare {seed} --only {index}: {difference}");
            differences += 1;
            if differences == MOST_DIFFERENCES {
                return false;
            }
        }
        coverage.count(&Seen {
            case: &case,
            number,
            after: pair.second(),
        });
    }
    print!("{coverage}");
    println!("\nrarest of all that has to be met");
    for (count, name) in coverage.rarest(RAREST) {
        println!("{count:>8}  {name}");
    }
    println!(
        "\nseed {seed}: {cases} cases, {differences} different, {} s",
        begin.elapsed().as_secs()
    );
    is_complete(&coverage) && differences == 0
}

/// Whether everything was met that has to be.
fn is_complete(coverage: &Coverage) -> bool {
    let missing = coverage.missing();
    for name in &missing {
        println!("never met: {name}");
    }
    missing.is_empty()
}

/// Prints one case and both answers.
fn show(seed: u64, index: u64) -> bool {
    let case = generate(seed, index);
    let mut pair = Pair::default();
    pair.make(&case);
    println!("{:?}\nbrought about: {:?}", case.call, case.faults);
    println!(
        "lengths: central {}, peripheral {}, result {}",
        case.lent.memory.len(),
        case.lent.peripheral.len(),
        case.lent.result.len()
    );
    let record: Vec<String> = case.lent.record.iter().map(|n| format!("{n:o}")).collect();
    println!("record: {}", record.join(" "));
    let [ours, second] = pair.answers(index, &case);
    println!("archive: {ours}\nsecond:  {second}");
    let difference = pair.difference(&case);
    println!("{}", difference.as_deref().unwrap_or("alike"));
    difference.is_none()
}

fn main() -> ExitCode {
    let arguments: Vec<String> = env::args().skip(1).collect();
    let arguments: Vec<&str> = arguments.iter().map(String::as_str).collect();
    let good = match task(&arguments) {
        Some(Task::Cases { seed, cases }) => compare(seed, cases),
        Some(Task::Only { seed, index }) => show(seed, index),
        Some(Task::Store) => store::store(),
        None => {
            eprintln!(
                "usage: compare [SEED [CASES]] | compare SEED --only INDEX | compare --store"
            );
            false
        }
    };
    if good {
        ExitCode::SUCCESS
    } else {
        ExitCode::FAILURE
    }
}
