//! Jobs placed in memory, and cases of many turns, of the run of a program and of a schedule.

use crate::case::{Call, Case, Lent};
use crate::central::{central_lent, central_record, fill_registers, program_address};
use crate::instruction::fill_field;
use crate::package::{package_of, WORDS};
use crate::rng::Rng;
use crate::values::{result_slice, word_60};
use tozhenab::layout::{CENTRAL_NUMBERS, EM, FL, P, RA};
use tozhenab::limits::{MOST_JOBS, MOST_STINTS, MOST_TURNS, MOST_WORDS};

/// Most words of a field that is filled with a program.
const MOST_FILLED: usize = 256;

/// Where a job's package and field are.
#[derive(Clone, Copy, Default)]
struct Job {
    package: usize,
    ra: usize,
    fl: usize,
}

/// The length of a field; with few jobs it may be long.
fn field_length(rng: &mut Rng, jobs: usize) -> usize {
    match rng.below(16) {
        0 => 0,
        1..=3 => 1,
        4..=5 if jobs < 4 => 13 + rng.place(60),
        _ => 2 + rng.place(11),
    }
}

/// Places packages and fields in any order, mostly without a gap, and gives the end.
fn place_jobs(rng: &mut Rng, count: usize) -> (Vec<Job>, usize) {
    let mut jobs = vec![Job::default(); count];
    let mut parts: Vec<usize> = (0..2 * count).collect();
    for n in (1..parts.len()).rev() {
        let other = rng.place(n + 1);
        parts.swap(n, other);
    }
    let mut end = 0;
    for part in parts {
        if rng.one_in(4) {
            end += rng.place(3);
        }
        let job = &mut jobs[part / 2];
        if part % 2 == 0 {
            job.package = end;
            end += WORDS;
        } else {
            job.ra = end;
            job.fl = field_length(rng, count);
            end += job.fl;
        }
    }
    // An empty field may lie anywhere.
    for job in jobs.iter_mut().filter(|job| job.fl == 0) {
        job.ra = rng.place(end + 1);
    }
    (jobs, end)
}

/// The length of memory for jobs that end there, and how far up they are moved: sometimes to the
/// end of the longest memory.
fn length_for(rng: &mut Rng, end: usize) -> (usize, usize) {
    match rng.below(256) {
        0 => (MOST_WORDS, MOST_WORDS - end),
        1 => (MOST_WORDS, 0),
        2..=64 => (end + rng.place(20), 0),
        _ => (end, 0),
    }
}

/// The package of a job that is about to run.
fn package(rng: &mut Rng, job: &Job) -> [u64; WORDS] {
    let mut record = [0; CENTRAL_NUMBERS];
    let fl = job.fl as u64;
    record[P] = program_address(rng, fl);
    record[RA] = job.ra as u64;
    record[FL] = fl;
    record[EM] = rng.pick(&[0, 0, 0o010000, 0o020000, 0o040000, 0o060000, 0o070000]);
    fill_registers(rng, &mut record, fl);
    package_of(&record)
}

/// Memory that holds the jobs, and the addresses of their packages.
fn jobs_in_memory(rng: &mut Rng, count: usize) -> (Vec<u64>, Vec<u64>) {
    let (mut jobs, end) = place_jobs(rng, count);
    let (length, up) = length_for(rng, end);
    let mut memory = vec![0; length];
    for word in memory.iter_mut().take(200) {
        *word = word_60(rng);
    }
    for job in &mut jobs {
        job.package += up;
        job.ra += up;
        fill_field(rng, &mut memory[job.ra..job.ra + job.fl]);
        let package = package(rng, job);
        memory[job.package..job.package + WORDS].copy_from_slice(&package);
    }
    let addresses = jobs.iter().map(|job| job.package as u64).collect();
    (memory, addresses)
}

/// The turns of a stint: mostly few.
fn turns(rng: &mut Rng, few: u64) -> u64 {
    match rng.below(64) {
        0..=3 => 0,
        4..=8 => 1,
        9..=11 => rng.below(300),
        _ => 1 + rng.below(few),
    }
}

/// The turns of a program that is run by itself: mostly few, at times as many as there may be.
fn program_turns(rng: &mut Rng) -> u64 {
    match rng.below(100) {
        0 => MOST_TURNS - rng.below(2),
        1..=12 => rng.below(2000),
        _ => turns(rng, 30),
    }
}

/// Many turns of a record as it stands. Its field mostly holds a program.
pub fn turns_case(rng: &mut Rng) -> Case {
    let mut lent = central_lent(rng);
    let (ra, fl) = (lent.record[RA] as usize, lent.record[FL] as usize);
    if fl <= MOST_FILLED && !rng.one_in(4) {
        fill_field(rng, &mut lent.memory[ra..ra + fl]);
    }
    let call = Call::CentralTurns {
        turns: program_turns(rng),
    };
    lent.result = result_slice(rng, call.result_length());
    Case {
        call,
        lent,
        faults: Vec::new(),
    }
}

/// The run of one program.
pub fn program_case(rng: &mut Rng) -> Case {
    let (memory, addresses) = jobs_in_memory(rng, 1);
    let call = Call::RunProgram {
        address: addresses[0],
        turns: program_turns(rng),
    };
    case(rng, call, memory)
}

/// A schedule: mostly of few jobs and stints, at times of as many as there may be, or of up to six
/// jobs more with nothing else at fault.
pub fn schedule_case(rng: &mut Rng) -> Case {
    let count = match rng.below(32) {
        0 | 1 => MOST_JOBS,
        2..=5 => 5 + rng.place(MOST_JOBS - 4),
        6 => MOST_JOBS + 1 + rng.place(6),
        _ => 1 + rng.place(4),
    };
    let stints = match rng.below(64) {
        0 => MOST_STINTS,
        1 => 200 + rng.place(MOST_STINTS - 199),
        2 => 0,
        _ => 1 + rng.place(8),
    };
    let (memory, jobs) = jobs_in_memory(rng, count);
    let stint_jobs = (0..stints).map(|_| rng.below(count as u64)).collect();
    let mut stint_turns: Vec<u64> = (0..stints).map(|_| turns(rng, 10)).collect();
    if stints > 0 && rng.one_in(400) {
        stint_turns[rng.place(stints)] = MOST_TURNS;
    }
    let call = Call::Schedule {
        jobs,
        stint_jobs,
        stint_turns,
    };
    case(rng, call, memory)
}

/// The record that the host lends has nothing to do with the jobs.
fn case(rng: &mut Rng, call: Call, memory: Vec<u64>) -> Case {
    let record = central_record(rng, memory.len());
    let result = result_slice(rng, call.result_length());
    Case {
        call,
        lent: Lent {
            memory,
            record,
            result,
            ..Lent::default()
        },
        faults: Vec::new(),
    }
}
