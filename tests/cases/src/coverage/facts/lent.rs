//! Records and results.

use crate::coverage::Seen;
use tozhenab::layout::{self, CHANNELS, CHANNEL_NUMBERS, MACHINE_NUMBERS, STOP, X};

impl Seen<'_> {
    pub fn has_another_length(&self) -> bool {
        self.case.lent.record.len() != self.case.call.record_length()
    }

    pub fn has_flag_over_1(&self) -> bool {
        let over = |channel: &[u64]| channel[..3].iter().any(|&flag| flag > 1);
        let record = &self.case.lent.record;
        match record.len() {
            _ if self.has_another_length() => false,
            CHANNEL_NUMBERS => over(record),
            MACHINE_NUMBERS => (0..CHANNELS).any(|n| over(&record[layout::channel(n)..])),
            _ => false,
        }
    }

    /// A value of more than 32 bits where none may stand; X registers have 60.
    pub fn is_very_wide(&self) -> bool {
        let registers_x = |place: usize| (X..STOP).contains(&place);
        let mut numbers = self.case.lent.record.iter().enumerate();
        let wide = numbers.any(|(place, number)| number >> 32 != 0 && !registers_x(place));
        wide && !self.has_another_length()
    }

    /// The central stop of the record, where the call takes one.
    fn lent_stop(&self) -> Option<u64> {
        let numbers = self.case.lent.record.len();
        (numbers > STOP && !self.has_another_length()).then(|| self.case.lent.record[STOP])
    }

    /// The central stop of a record that is refused, where no other refusal is due. If no record may
    /// hold it, nothing else of the record is at fault.
    pub fn refused_stop(&self) -> Option<u64> {
        let alone = self.number == 5 && self.case.faults == [5];
        self.lent_stop().filter(|_| alone)
    }

    /// A call that was carried out on a record with this stop.
    pub fn holds_stop(&self, stop: u64) -> bool {
        self.number == 0 && self.lent_stop() == Some(stop)
    }

    pub fn has_short_result(&self) -> bool {
        self.case.lent.result.len() < self.case.call.result_length()
    }

    pub fn has_spare_result(&self) -> bool {
        self.case.lent.result.len() > self.case.call.result_length()
    }
}
