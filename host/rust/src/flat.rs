//! The calls over slices of numbers, as `tozhenab.h` describes them.
//!
//! Each gives the number of the refusal, or 0. Records are slices of [`CENTRAL_NUMBERS`],
//! [`MACHINE_NUMBERS`] or [`CHANNEL_NUMBERS`]. Slices of a wrong length have one rule: a memory is
//! number 1 or 2, a record 5, any list or result 6.
//!
//! A result slice may be longer than the result; its other elements keep their values. After a
//! refusal a result of counts (turns, stops, rounds) is 0 throughout, and that of [`take`] is as it
//! was. A result slice that is too short is as it was after any refusal.
//!
//! [`CENTRAL_NUMBERS`]: crate::layout::CENTRAL_NUMBERS
//! [`MACHINE_NUMBERS`]: crate::layout::MACHINE_NUMBERS
//! [`CHANNEL_NUMBERS`]: crate::layout::CHANNEL_NUMBERS

/// The C functions of libhost_calls.a.
///
/// They ask for pointers that are not null, aligned, valid for the number of elements that follows
/// each, and exclusive where they are `*mut`. That is what a `&mut` slice is, also an empty one; a
/// list behind `*const` is only read, so that two lists may share memory.
mod archive {
    extern "C" {
        pub fn tozhenab_central_turn(
            memory: *mut u64,
            memory_length: usize,
            record: *mut u64,
            record_length: usize,
        ) -> u64;
        pub fn tozhenab_central_turns(
            memory: *mut u64,
            memory_length: usize,
            record: *mut u64,
            record_length: usize,
            turns: u64,
            result: *mut u64,
            result_length: usize,
        ) -> u64;
        pub fn tozhenab_exchange(
            memory: *mut u64,
            memory_length: usize,
            record: *mut u64,
            record_length: usize,
            address: u64,
        ) -> u64;
        pub fn tozhenab_run_program(
            memory: *mut u64,
            memory_length: usize,
            record: *const u64,
            record_length: usize,
            address: u64,
            turns: u64,
            result: *mut u64,
            result_length: usize,
        ) -> u64;
        pub fn tozhenab_schedule(
            memory: *mut u64,
            memory_length: usize,
            record: *const u64,
            record_length: usize,
            jobs: *const u64,
            jobs_length: usize,
            stint_jobs: *const u64,
            stint_jobs_length: usize,
            stint_turns: *const u64,
            stint_turns_length: usize,
            result: *mut u64,
            result_length: usize,
        ) -> u64;
        pub fn tozhenab_peripheral_turn(
            central: *mut u64,
            central_length: usize,
            peripheral: *mut u16,
            peripheral_length: usize,
            record: *mut u64,
            record_length: usize,
            processor: u64,
        ) -> u64;
        pub fn tozhenab_run(
            central: *mut u64,
            central_length: usize,
            peripheral: *mut u16,
            peripheral_length: usize,
            record: *mut u64,
            record_length: usize,
            rounds: u64,
            result: *mut u64,
            result_length: usize,
        ) -> u64;
        pub fn tozhenab_put(channel: *mut u64, channel_length: usize, word: u64) -> u64;
        pub fn tozhenab_take(
            channel: *mut u64,
            channel_length: usize,
            result: *mut u64,
            result_length: usize,
        ) -> u64;
        pub fn tozhenab_drop(channel: *mut u64, channel_length: usize) -> u64;
    }
}

/// One turn of the central processor. Refusals 1, 3, 5. For more than one, [`central_turns`].
pub fn central_turn(memory: &mut [u64], record: &mut [u64]) -> u64 {
    // SAFETY: the pointers are those of exclusive slices, each with its length.
    unsafe {
        archive::tozhenab_central_turn(
            memory.as_mut_ptr(),
            memory.len(),
            record.as_mut_ptr(),
            record.len(),
        )
    }
}

/// Up to so many turns of the central processor, ended early by a stop; the result is the turns
/// made. Refusals 1, 3, 5, 6, 8.
pub fn central_turns(
    memory: &mut [u64],
    record: &mut [u64],
    turns: u64,
    result: &mut [u64],
) -> u64 {
    // SAFETY: the pointers are those of exclusive slices, each with its length.
    unsafe {
        archive::tozhenab_central_turns(
            memory.as_mut_ptr(),
            memory.len(),
            record.as_mut_ptr(),
            record.len(),
            turns,
            result.as_mut_ptr(),
            result.len(),
        )
    }
}

/// An exchange jump at the address. Refusals 1, 3, 5, 9, 10, 11.
pub fn exchange(memory: &mut [u64], record: &mut [u64], address: u64) -> u64 {
    // SAFETY: the pointers are those of exclusive slices, each with its length.
    unsafe {
        archive::tozhenab_exchange(
            memory.as_mut_ptr(),
            memory.len(),
            record.as_mut_ptr(),
            record.len(),
            address,
        )
    }
}

/// Runs the program of the package at the address for up to so many turns; the result is the turns
/// made and the stop. Refusals 1, 3, 5, 6, 8 to 12.
pub fn run_program(
    memory: &mut [u64],
    record: &[u64],
    address: u64,
    turns: u64,
    result: &mut [u64],
) -> u64 {
    // SAFETY: the pointers are those of slices, each with its length; those written to are
    // exclusive.
    unsafe {
        archive::tozhenab_run_program(
            memory.as_mut_ptr(),
            memory.len(),
            record.as_ptr(),
            record.len(),
            address,
            turns,
            result.as_mut_ptr(),
            result.len(),
        )
    }
}

/// Runs the programs of the packages at the addresses in `jobs` by a schedule of stints; the result
/// is the turns made and the stop of each stint. Refusals 1, 3, 5 to 12.
pub fn schedule(
    memory: &mut [u64],
    record: &[u64],
    jobs: &[u64],
    stint_jobs: &[u64],
    stint_turns: &[u64],
    result: &mut [u64],
) -> u64 {
    // SAFETY: the pointers are those of slices, each with its length; those written to are
    // exclusive.
    unsafe {
        archive::tozhenab_schedule(
            memory.as_mut_ptr(),
            memory.len(),
            record.as_ptr(),
            record.len(),
            jobs.as_ptr(),
            jobs.len(),
            stint_jobs.as_ptr(),
            stint_jobs.len(),
            stint_turns.as_ptr(),
            stint_turns.len(),
            result.as_mut_ptr(),
            result.len(),
        )
    }
}

/// One turn of the peripheral processor of this number. Refusals 1 to 5.
pub fn peripheral_turn(
    central: &mut [u64],
    peripheral: &mut [u16],
    record: &mut [u64],
    processor: u64,
) -> u64 {
    // SAFETY: the pointers are those of exclusive slices, each with its length.
    unsafe {
        archive::tozhenab_peripheral_turn(
            central.as_mut_ptr(),
            central.len(),
            peripheral.as_mut_ptr(),
            peripheral.len(),
            record.as_mut_ptr(),
            record.len(),
            processor,
        )
    }
}

/// Up to so many rounds; the result is the rounds made. Refusals 1 to 6, 8.
pub fn run(
    central: &mut [u64],
    peripheral: &mut [u16],
    record: &mut [u64],
    rounds: u64,
    result: &mut [u64],
) -> u64 {
    // SAFETY: the pointers are those of exclusive slices, each with its length.
    unsafe {
        archive::tozhenab_run(
            central.as_mut_ptr(),
            central.len(),
            peripheral.as_mut_ptr(),
            peripheral.len(),
            record.as_mut_ptr(),
            record.len(),
            rounds,
            result.as_mut_ptr(),
            result.len(),
        )
    }
}

/// A device puts a word on a channel. Refusals 5, 13, 14.
pub fn put(channel: &mut [u64], word: u64) -> u64 {
    // SAFETY: the pointer is that of an exclusive slice, with its length.
    unsafe { archive::tozhenab_put(channel.as_mut_ptr(), channel.len(), word) }
}

/// A device takes the word of a channel; the result is the word and its mark, and a refusal leaves
/// it as it was. Refusals 5, 6, 15.
pub fn take(channel: &mut [u64], result: &mut [u64]) -> u64 {
    // SAFETY: the pointers are those of exclusive slices, each with its length.
    unsafe {
        archive::tozhenab_take(
            channel.as_mut_ptr(),
            channel.len(),
            result.as_mut_ptr(),
            result.len(),
        )
    }
}

/// A device makes a channel inactive and empty. Refusal 5.
pub fn drop(channel: &mut [u64]) -> u64 {
    // SAFETY: the pointer is that of an exclusive slice, with its length.
    unsafe { archive::tozhenab_drop(channel.as_mut_ptr(), channel.len()) }
}
