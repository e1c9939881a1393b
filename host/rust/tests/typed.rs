//! The calls over records with named fields: one that is carried out and one that is refused each.

use tozhenab::limits::MOST_JOBS;
use tozhenab::{CentralRecord, Channel, MachineRecord, Ran, Refusal, Stint, Taken};

/// X6 = 5, A6 = 3, which stores X6 at 3.
const STORE: u64 = 0o71600000055160000003;

/// The worked example of document 01.
fn memory() -> Vec<u64> {
    let mut memory = vec![0; 0o100];
    memory[1] = 0o20 << 36;
    memory[2] = 4 << 36;
    memory[0o20] = STORE;
    memory
}

/// The record that the package of the worked example holds.
fn record() -> CentralRecord {
    CentralRecord {
        ra: 0o20,
        fl: 4,
        ..CentralRecord::default()
    }
}

#[test]
fn a_central_turn() {
    let (mut lent, mut central) = (memory(), record());
    tozhenab::central_turn(&mut lent, &mut central).unwrap();
    assert_eq!((central.p, central.a[6], central.x[6]), (1, 3, 5));
    assert_eq!(lent[0o23], 5);
    tozhenab::central_turn(&mut lent, &mut central).unwrap();
    assert_eq!((central.p, central.stop), (1, 1));
    central.b[0] = 1;
    let before = central;
    assert_eq!(
        tozhenab::central_turn(&mut lent, &mut central),
        Err(Refusal::RecordValue)
    );
    assert_eq!(central, before);
}

/// X6 = X1 + X2, floating.
const SUM: u64 = 0o30612460004600046000;
const INFINITE: u64 = 0o3777 << 48;
const INDEFINITE: u64 = 0o1777 << 48;

#[test]
fn a_sum_of_special_operands() {
    let (infinite, indefinite) = (0o020000, 0o040000);
    for (em, x1, stop, x6) in [
        (0, INFINITE, 0, INFINITE),
        (infinite, INFINITE, 7, 0),
        (indefinite, INFINITE, 0, INFINITE),
        (0, INDEFINITE, 0, INDEFINITE),
        (infinite, INDEFINITE, 0, INDEFINITE),
        (indefinite, INDEFINITE, 8, 0),
    ] {
        let (mut lent, mut central) = (memory(), record());
        lent[0o20] = SUM;
        central.em = em;
        central.x[1] = x1;
        tozhenab::central_turn(&mut lent, &mut central).unwrap();
        assert_eq!((central.stop, central.x[6]), (stop, x6), "EM {em:o}");
    }
}

#[test]
fn stops_that_a_record_may_hold() {
    for stop in 0..=36 {
        let mut central = record();
        central.stop = stop;
        let given = tozhenab::central_turn(&mut memory(), &mut central);
        let refused = (!matches!(stop, 0..=5 | 7 | 8)).then_some(Refusal::RecordValue);
        assert_eq!(given.err(), refused, "stop {stop}");
        assert!(stop == 0 || central.stop == stop);
    }
}

#[test]
fn central_turns() {
    let (mut lent, mut central) = (memory(), record());
    assert_eq!(tozhenab::central_turns(&mut lent, &mut central, 5), Ok(2));
    assert_eq!((central.p, central.x[6], central.stop), (1, 5, 1));
    assert_eq!(lent[0o23], 5);
    let stopped = central;
    assert_eq!(tozhenab::central_turns(&mut lent, &mut central, 5), Ok(0));
    assert_eq!(central, stopped);
    assert_eq!(
        tozhenab::central_turns(&mut lent, &mut central, 65_536),
        Err(Refusal::TooManyTurns)
    );
    assert_eq!(central, stopped);
}

#[test]
fn n_turns_and_then_k_are_n_plus_k() {
    for n in 0..4 {
        for k in 0..4 {
            let (mut lent, mut central) = (memory(), record());
            let first = tozhenab::central_turns(&mut lent, &mut central, n).unwrap();
            let second = tozhenab::central_turns(&mut lent, &mut central, k).unwrap();
            let (mut other, mut same) = (memory(), record());
            let made = tozhenab::central_turns(&mut other, &mut same, n + k);
            assert_eq!(made, Ok(first + second));
            assert_eq!((lent, central), (other, same));
        }
    }
}

#[test]
fn an_exchange() {
    let (mut lent, mut central) = (memory(), CentralRecord::default());
    central.stop = 5;
    tozhenab::exchange(&mut lent, &mut central, 0).unwrap();
    assert_eq!(central, record());
    assert_eq!(lent[..0o20], [0; 0o20]);
    assert_eq!(
        tozhenab::exchange(&mut lent, &mut central, 0o61),
        Err(Refusal::PackagePastEnd)
    );
    assert_eq!(central, record());
}

#[test]
fn a_program() {
    let (mut lent, central) = (memory(), CentralRecord::default());
    let ran = tozhenab::run_program(&mut lent, &central, 0, 5);
    assert_eq!(ran, Ok(Ran { turns: 2, stop: 1 }));
    assert_eq!(lent[0o23], 5);
    let ran = tozhenab::run_program(&mut lent, &central, 0, 65_536);
    assert_eq!(ran, Err(Refusal::TooManyTurns));
}

#[test]
fn a_schedule() {
    let (mut lent, central) = (memory(), CentralRecord::default());
    let stints = [1, 0, 4].map(|turns| Stint { job: 0, turns });
    let ran = tozhenab::schedule(&mut lent, &central, &[0], &stints).unwrap();
    assert_eq!(ran.len(), 3);
    assert_eq!(ran[0], Ran { turns: 1, stop: 0 });
    assert_eq!(ran[1], Ran { turns: 0, stop: 0 });
    assert_eq!(ran[2], Ran { turns: 1, stop: 1 });
    let stints = [Stint { job: 1, turns: 1 }];
    assert_eq!(
        tozhenab::schedule(&mut lent, &central, &[0], &stints),
        Err(Refusal::UnlistedJob)
    );
    assert_eq!(
        tozhenab::schedule(&mut lent, &central, &[0, 0], &[]),
        Err(Refusal::SharedWord)
    );
}

/// A memory of so many jobs with empty fields, and the addresses of their packages.
fn many_jobs(count: usize) -> (Vec<u64>, Vec<u64>) {
    let addresses = (0..count as u64).map(|job| 16 * job).collect();
    (vec![0; 16 * count], addresses)
}

#[test]
fn as_many_jobs_as_there_may_be() {
    let (mut lent, jobs) = many_jobs(MOST_JOBS);
    let stints: Vec<Stint> = (0..MOST_JOBS as u64)
        .map(|job| Stint { job, turns: 5 })
        .collect();
    let ran = tozhenab::schedule(&mut lent, &CentralRecord::default(), &jobs, &stints);
    assert_eq!(ran, Ok(vec![Ran { turns: 1, stop: 3 }; MOST_JOBS]));
}

#[test]
fn more_jobs_than_there_may_be() {
    for count in (MOST_JOBS + 1..=2 * MOST_JOBS).chain([256 + MOST_JOBS]) {
        let (mut lent, jobs) = many_jobs(count);
        let stints = [Stint { job: 0, turns: 1 }];
        assert_eq!(
            tozhenab::schedule(&mut lent, &CentralRecord::default(), &jobs, &stints),
            Err(Refusal::ListLength),
            "{count} jobs"
        );
        assert_eq!(lent, vec![0; 16 * count]);
    }
}

#[test]
fn a_peripheral_turn() {
    let (mut central, mut peripheral) = (memory(), vec![0; 2 * 4096]);
    let mut machine = MachineRecord::default();
    peripheral[4096] = 0o1412; // A = 12 octal
    tozhenab::peripheral_turn(&mut central, &mut peripheral, &mut machine, 1).unwrap();
    assert_eq!(
        (machine.processors[1].p, machine.processors[1].a),
        (1, 0o12)
    );
    assert_eq!(
        tozhenab::peripheral_turn(&mut central, &mut peripheral, &mut machine, 2),
        Err(Refusal::PeripheralLength)
    );
}

#[test]
fn a_run() {
    let (mut central, mut peripheral) = (memory(), vec![0; 4096]);
    let mut machine = MachineRecord {
        central: record(),
        ..MachineRecord::default()
    };
    peripheral[1] = 0o7100; // a code left out: stop 36
    assert_eq!(
        tozhenab::run(&mut central, &mut peripheral, &mut machine, 9),
        Ok(2)
    );
    assert_eq!((machine.central.stop, machine.clock), (1, 2));
    assert_eq!(machine.processors[0].stop, 36);
    assert_eq!(
        tozhenab::run(&mut central, &mut peripheral, &mut machine, 65_536),
        Err(Refusal::TooManyTurns)
    );
}

#[test]
fn a_device() {
    let mut channel = Channel::default();
    assert_eq!(tozhenab::put(&mut channel, 5), Err(Refusal::PutUnmet));
    assert_eq!(tozhenab::put(&mut channel, 4096), Err(Refusal::DeviceWord));
    assert_eq!(tozhenab::take(&mut channel), Err(Refusal::TakeUnmet));
    channel.active = true;
    tozhenab::put(&mut channel, 5).unwrap();
    let word = Taken {
        word: 5,
        mark: false,
    };
    assert_eq!(tozhenab::take(&mut channel), Ok(word));
    assert!(channel.active && !channel.full);
    channel = Channel {
        active: true,
        full: true,
        mark: true,
        word: 6,
    };
    let function = Taken {
        word: 6,
        mark: true,
    };
    assert_eq!(tozhenab::take(&mut channel), Ok(function));
    assert_eq!(channel, Channel::default());
    channel.word = 4096;
    assert_eq!(tozhenab::drop(&mut channel), Err(Refusal::RecordValue));
    channel.word = 4095;
    tozhenab::drop(&mut channel).unwrap();
    assert_eq!(channel, Channel::default());
}
