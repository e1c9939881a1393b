//! Slices of every odd length: the number that is given, and that nothing else is written.

use tozhenab::flat;
use tozhenab::layout::{self, CENTRAL_NUMBERS, CHANNEL_NUMBERS, MACHINE_NUMBERS};

/// A value that no call writes.
const KEPT: u64 = 0o7070707;

const CENTRAL_LENGTHS: [usize; 7] = [0, 1, 4, 28, 30, 107, 108];
const MACHINE_LENGTHS: [usize; 7] = [0, 1, 29, 30, 107, 109, 216];
const CHANNEL_LENGTHS: [usize; 6] = [0, 1, 3, 5, 29, 108];

/// The worked example of document 01.
fn memory() -> Vec<u64> {
    let mut memory = vec![0; 0o100];
    memory[1] = 0o20 << 36;
    memory[2] = 4 << 36;
    memory[0o20] = 0o71600000055160000003;
    memory
}

/// Asserts that the call gives the number and leaves record and result as they were.
fn assert_kept(
    number: u64,
    record: &[u64],
    result: &[u64],
    call: impl FnOnce(&mut [u64], &mut [u64]) -> u64,
) {
    let (mut record_after, mut result_after) = (record.to_vec(), result.to_vec());
    let given = call(&mut record_after, &mut result_after);
    let lengths = (record.len(), result.len());
    assert_eq!(given, number, "lengths of record and result {lengths:?}");
    assert_eq!(record_after, record);
    assert_eq!(result_after, result);
}

#[test]
fn a_central_record_of_another_length_is_5() {
    for length in CENTRAL_LENGTHS {
        let mut lent = memory();
        let record = vec![0; length];
        assert_kept(5, &record, &[], |r, _| flat::central_turn(&mut lent, r));
        assert_kept(5, &record, &[], |r, _| flat::exchange(&mut lent, r, 0));
        assert_kept(5, &record, &[], |r, out| {
            flat::central_turns(&mut lent, r, 5, out)
        });
        // A short result stays as it is, and 5 comes before 6.
        assert_kept(5, &record, &[KEPT], |r, out| {
            flat::run_program(&mut lent, r, 0, 5, out)
        });
        assert_kept(5, &record, &[KEPT], |r, out| {
            flat::schedule(&mut lent, r, &[0], &[0], &[5], out)
        });
        assert_eq!(lent, memory());
    }
}

#[test]
fn a_machine_record_of_another_length_is_5() {
    for length in MACHINE_LENGTHS {
        let (mut central, mut peripheral) = (memory(), vec![0; 4096]);
        let record = vec![0; length];
        assert_kept(5, &record, &[], |r, _| {
            flat::peripheral_turn(&mut central, &mut peripheral, r, 0)
        });
        assert_kept(5, &record, &[], |r, out| {
            flat::run(&mut central, &mut peripheral, r, 1, out)
        });
        assert_eq!(central, memory());
        assert_eq!(peripheral, vec![0; 4096]);
    }
}

#[test]
fn a_channel_of_another_length_is_5() {
    for length in CHANNEL_LENGTHS {
        let channel = vec![1; length];
        assert_kept(5, &channel, &[], |r, _| flat::put(r, 0));
        assert_kept(5, &channel, &[KEPT], flat::take);
        assert_kept(5, &channel, &[], |r, _| flat::drop(r));
    }
}

#[test]
fn a_flag_over_1_is_5() {
    for flag in 0..3 {
        let mut channel = [1, 1, 1, 0o1234];
        channel[flag] = 2;
        assert_kept(5, &channel, &[], |r, _| flat::put(r, 0));
        assert_kept(5, &channel, &[], flat::take);
        assert_kept(5, &channel, &[], |r, _| flat::drop(r));
        for n in 0..12 {
            let mut record = [0; MACHINE_NUMBERS];
            record[layout::channel(n) + flag] = 2;
            let (mut central, mut peripheral) = (memory(), vec![0; 4096]);
            assert_kept(5, &record, &[], |r, _| {
                flat::peripheral_turn(&mut central, &mut peripheral, r, 0)
            });
            assert_kept(5, &record, &[], |r, out| {
                flat::run(&mut central, &mut peripheral, r, 1, out)
            });
        }
    }
}

#[test]
fn a_short_result_is_6_before_the_later_numbers() {
    let record = [0; CENTRAL_NUMBERS];
    let mut lent = memory();
    for short in [&[][..], &[KEPT]] {
        // 65,536 turns are number 8, a full channel that is inactive is number 15.
        assert_kept(6, &record, short, |r, out| {
            flat::run_program(&mut lent, r, 0, 65_536, out)
        });
        assert_kept(6, &[0, 1, 0, 7], short, flat::take);
        // No listed job is number 7.
        assert_kept(6, &record, short, |r, out| {
            flat::schedule(&mut lent, r, &[0], &[1], &[5], out)
        });
    }
    assert_kept(6, &record, &[KEPT; 3], |r, out| {
        flat::schedule(&mut lent, r, &[0], &[0, 0], &[1, 1], out)
    });
    assert_kept(6, &record, &[], |r, out| {
        flat::central_turns(&mut lent, r, 65_536, out)
    });
    assert_eq!(lent, memory());
    let mut peripheral = vec![0; 4096];
    assert_kept(6, &[0; MACHINE_NUMBERS], &[], |r, out| {
        flat::run(&mut lent, &mut peripheral, r, 65_536, out)
    });
}

#[test]
fn the_host_is_told_of_its_memories_first() {
    let mut nothing = [];
    assert_kept(1, &[], &[], |r, _| flat::central_turn(&mut nothing, r));
    assert_kept(1, &[], &[], |r, out| {
        flat::central_turns(&mut nothing, r, 0, out)
    });
    assert_kept(1, &[], &[], |r, _| flat::exchange(&mut nothing, r, 0));
    assert_kept(1, &[], &[], |r, out| {
        flat::run_program(&mut nothing, r, 0, 0, out)
    });
    assert_kept(1, &[], &[], |r, out| {
        flat::schedule(&mut nothing, r, &[], &[], &[], out)
    });
    assert_kept(1, &[], &[], |r, _| {
        flat::peripheral_turn(&mut nothing, &mut [], r, 0)
    });
    assert_kept(1, &[], &[], |r, out| {
        flat::run(&mut nothing, &mut [], r, 0, out)
    });
    for length in [0, 1, 4095, 4097, 45_056] {
        let mut peripheral = vec![0; length];
        assert_kept(2, &[], &[], |r, _| {
            flat::peripheral_turn(&mut memory(), &mut peripheral, r, 0)
        });
        assert_kept(2, &[], &[], |r, out| {
            flat::run(&mut memory(), &mut peripheral, r, 0, out)
        });
    }
}

/// Asserts that the call gives the number, writes the result and keeps what stands past it.
fn assert_result<const N: usize>(
    number: u64,
    expected: [u64; N],
    call: impl FnOnce(&mut [u64]) -> u64,
) {
    let mut result = [KEPT; 8];
    assert_eq!(call(&mut result), number);
    assert_eq!(result[..N], expected);
    assert_eq!(result[N..], [KEPT; 8][N..]);
}

#[test]
fn what_stands_past_a_result_is_kept() {
    let record = [0; CENTRAL_NUMBERS];
    assert_result(0, [1], |out| {
        flat::central_turns(&mut memory(), &mut [0; CENTRAL_NUMBERS], 5, out)
    });
    assert_result(0, [2, 1], |out| {
        flat::run_program(&mut memory(), &record, 0, 5, out)
    });
    assert_result(0, [1, 0, 1, 1], |out| {
        flat::schedule(&mut memory(), &record, &[0], &[0, 0], &[1, 4], out)
    });
    assert_result(0, [0o1234, 1], |out| {
        flat::take(&mut [1, 1, 1, 0o1234], out)
    });
    let mut machine = [0; MACHINE_NUMBERS];
    assert_result(0, [3], |out| {
        flat::run(&mut memory(), &mut [0; 4096], &mut machine, 3, out)
    });
}

#[test]
fn a_result_of_counts_is_0_after_a_refusal() {
    let record = [0; CENTRAL_NUMBERS];
    assert_result(8, [0], |out| {
        flat::central_turns(&mut memory(), &mut [0; CENTRAL_NUMBERS], 65_536, out)
    });
    assert_result(9, [0, 0], |out| {
        flat::run_program(&mut memory(), &record, 0o61, 5, out)
    });
    assert_result(6, [0, 0, 0, 0], |out| {
        flat::schedule(&mut memory(), &record, &[0], &[0, 0], &[1], out)
    });
    let mut machine = [0; MACHINE_NUMBERS];
    assert_result(8, [0], |out| {
        flat::run(&mut memory(), &mut [0; 4096], &mut machine, 65_536, out)
    });
}

#[test]
fn the_result_of_a_refused_take_is_kept() {
    for length in 2..8 {
        let result = vec![KEPT; length];
        assert_kept(15, &[0; CHANNEL_NUMBERS], &result, flat::take);
        assert_kept(15, &[1, 0, 0, 0], &result, flat::take);
        assert_kept(5, &[1, 1, 0, 4096], &result, flat::take);
        assert_kept(5, &[1, 2, 0, 7], &result, flat::take);
        assert_kept(5, &[1, 1, 0], &result, flat::take);
    }
}
