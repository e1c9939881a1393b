//! Where each value stands in a flat record.

/// Numbers of a central record.
pub const CENTRAL_NUMBERS: usize = 29;
/// Numbers of a channel.
pub const CHANNEL_NUMBERS: usize = 4;
/// Numbers of a peripheral processor.
pub const PROCESSOR_NUMBERS: usize = 3;
/// Numbers of a machine record: a central record, the clock, twelve channels, ten processors.
pub const MACHINE_NUMBERS: usize = 108;

/// Channels of a machine.
pub const CHANNELS: usize = 12;
/// Peripheral processors of a machine record.
pub const PROCESSORS: usize = 10;

/// P of the central processor.
pub const P: usize = 0;
/// RA, the first word of the field.
pub const RA: usize = 1;
/// FL, the length of the field.
pub const FL: usize = 2;
/// EM, the exit mode.
pub const EM: usize = 3;
/// A0; A1 to A7 follow.
pub const A: usize = 4;
/// B0; B1 to B7 follow.
pub const B: usize = 12;
/// X0; X1 to X7 follow.
pub const X: usize = 20;
/// The stop of the central processor.
pub const STOP: usize = 28;

/// The clock of a machine record.
pub const CLOCK: usize = 29;

/// The first number of a channel in a machine record.
pub const fn channel(n: usize) -> usize {
    30 + CHANNEL_NUMBERS * n
}

/// The first number of a peripheral processor in a machine record.
pub const fn processor(n: usize) -> usize {
    channel(CHANNELS) + PROCESSOR_NUMBERS * n
}

/// Whether a channel is active, counted from the channel's first number.
pub const ACTIVE: usize = 0;
/// Whether a channel is full.
pub const FULL: usize = 1;
/// The function mark of a channel.
pub const MARK: usize = 2;
/// The word of a channel.
pub const WORD: usize = 3;

/// P of a peripheral processor, counted from the processor's first number.
pub const PROCESSOR_P: usize = 0;
/// A of a peripheral processor.
pub const PROCESSOR_A: usize = 1;
/// The stop of a peripheral processor.
pub const PROCESSOR_STOP: usize = 2;
