//! How much a call takes.

/// Most words of central memory.
pub const MOST_WORDS: usize = 131_072;
/// Most jobs of a schedule; one more is refused with 6.
pub const MOST_JOBS: usize = 11;
/// Most stints of a schedule.
pub const MOST_STINTS: usize = 256;
/// Most turns of a stint or a call, most rounds of a run.
pub const MOST_TURNS: u64 = 65_535;
