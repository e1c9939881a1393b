//! What the codes of channels ask of a channel, and what they leave.

use tozhenab::layout::{self, ACTIVE, FULL};

/// The codes that wait where their channel is not as they need it.
pub const WAITING: [usize; 6] = [0o70, 0o72, 0o74, 0o75, 0o76, 0o77];

/// Whether a channel is active, and whether it is full.
#[derive(Clone, Copy)]
pub struct ChannelState {
    pub active: bool,
    pub full: bool,
}

impl ChannelState {
    /// The state of a channel of a machine record.
    pub fn of(record: &[u64], channel: usize) -> ChannelState {
        let own = &record[layout::channel(channel)..];
        ChannelState {
            active: own[ACTIVE] == 1,
            full: own[FULL] == 1,
        }
    }

    /// Whether 64 to 67 jump.
    pub fn jumps(self, code: usize) -> bool {
        match code {
            0o64 => self.active,
            0o65 => !self.active,
            0o66 => self.full,
            _ => !self.full,
        }
    }

    /// Whether a code of `WAITING` goes on.
    pub fn meets(self, code: usize) -> bool {
        match code {
            0o70 => self.active && self.full,
            0o72 => self.active && !self.full,
            0o75 => self.active,
            _ => !self.active,
        }
    }

    /// The state that a code of `WAITING` leaves where it goes on.
    fn after(self, code: usize) -> ChannelState {
        let (active, full) = match code {
            0o70 => (true, false),
            0o74 => (true, self.full),
            0o75 => (false, false),
            _ => (true, true),
        };
        ChannelState { active, full }
    }

    /// Whether a code of `WAITING` waits, and goes on after another one.
    pub fn wait_ended_by(self, waiting: usize, other: usize) -> bool {
        !self.meets(waiting) && self.meets(other) && self.after(other).meets(waiting)
    }
}
