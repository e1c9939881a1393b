//! Flat records as the records of the second emulator, and back.
//!
//! Its fields are narrower than the numbers of a flat record. A number that a field cannot hold is
//! handed over as the greatest that it can, which is over its width there too.

use second::{Central, Channel, Processor};
use tozhenab::layout::{
    self, A, ACTIVE, B, CENTRAL_NUMBERS, CHANNELS, CHANNEL_NUMBERS, CLOCK, EM, FL, FULL, MARK, P,
    PROCESSORS, PROCESSOR_A, PROCESSOR_NUMBERS, PROCESSOR_P, PROCESSOR_STOP, RA, STOP, WORD, X,
};

pub fn to_u8(number: u64) -> u8 {
    number.try_into().unwrap_or(u8::MAX)
}

pub fn to_u16(number: u64) -> u16 {
    number.try_into().unwrap_or(u16::MAX)
}

pub fn to_u32(number: u64) -> u32 {
    number.try_into().unwrap_or(u32::MAX)
}

pub fn central(flat: &[u64]) -> Central {
    let eight = |at: usize| std::array::from_fn(|n| to_u32(flat[at + n]));
    Central {
        p: to_u32(flat[P]),
        ra: to_u32(flat[RA]),
        fl: to_u32(flat[FL]),
        em: to_u32(flat[EM]),
        a: eight(A),
        b: eight(B),
        x: std::array::from_fn(|n| flat[X + n]),
        stop: to_u8(flat[STOP]),
        ..Central::default()
    }
}

pub fn keep_central(flat: &mut [u64], central: &Central) {
    for n in 0..8 {
        flat[A + n] = central.a[n].into();
        flat[B + n] = central.b[n].into();
        flat[X + n] = central.x[n];
    }
    flat[P] = central.p.into();
    flat[RA] = central.ra.into();
    flat[FL] = central.fl.into();
    flat[EM] = central.em.into();
    flat[STOP] = central.stop.into();
}

/// A flag over 1, which a truth value cannot be, becomes a word over its width: both are number 5.
pub fn channel(flat: &[u64]) -> Channel {
    let flag_over_1 = flat[..WORD].iter().any(|&flag| flag > 1);
    Channel {
        active: flat[ACTIVE] == 1,
        full: flat[FULL] == 1,
        function: flat[MARK] == 1,
        word: if flag_over_1 {
            u16::MAX
        } else {
            to_u16(flat[WORD])
        },
    }
}

pub fn keep_channel(flat: &mut [u64], channel: &Channel) {
    flat[ACTIVE] = channel.active.into();
    flat[FULL] = channel.full.into();
    flat[MARK] = channel.function.into();
    flat[WORD] = channel.word.into();
}

/// A machine record, taken apart.
pub struct Parts {
    pub central: Central,
    pub clock: u16,
    pub channels: [Channel; CHANNELS],
    pub processors: [Processor; PROCESSORS],
}

impl Parts {
    pub fn of(flat: &[u64]) -> Parts {
        Parts {
            central: central(&flat[..CENTRAL_NUMBERS]),
            clock: to_u16(flat[CLOCK]),
            channels: std::array::from_fn(|n| {
                channel(&flat[layout::channel(n)..][..CHANNEL_NUMBERS])
            }),
            processors: std::array::from_fn(|n| processor(&flat[layout::processor(n)..])),
        }
    }

    pub fn keep(&self, flat: &mut [u64]) {
        keep_central(flat, &self.central);
        flat[CLOCK] = self.clock.into();
        for (n, channel) in self.channels.iter().enumerate() {
            keep_channel(&mut flat[layout::channel(n)..], channel);
        }
        for (n, processor) in self.processors.iter().enumerate() {
            let numbers = [
                processor.p.into(),
                processor.a.into(),
                processor.stop.into(),
            ];
            flat[layout::processor(n)..][..PROCESSOR_NUMBERS].copy_from_slice(&numbers);
        }
    }
}

fn processor(flat: &[u64]) -> Processor {
    Processor {
        p: to_u16(flat[PROCESSOR_P]),
        a: to_u32(flat[PROCESSOR_A]),
        stop: to_u8(flat[PROCESSOR_STOP]),
        ..Processor::default()
    }
}
