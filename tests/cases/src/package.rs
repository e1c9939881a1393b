//! The exchange package that holds the registers of a central record.

use crate::values::ONES_18;
use tozhenab::layout::{A, B, EM, FL, P, RA, X};

/// Words of a package.
pub const WORDS: usize = 16;

/// Where P, RA, FL and EM stand in words 0 to 3.
pub const HIGH: u32 = 36;

/// The package of a central record.
pub fn package_of(record: &[u64]) -> [u64; WORDS] {
    let mut package = [0; WORDS];
    for n in 0..8 {
        package[n] = record[A + n] << 18 | record[B + n];
        package[8 + n] = record[X + n];
    }
    for (n, register) in [P, RA, FL, EM].into_iter().enumerate() {
        package[n] |= record[register] << HIGH;
    }
    package
}

/// The bits that have to be zero in each of words 0 to 7.
pub fn stray_bits(n: usize) -> u64 {
    const AB: u64 = (1 << 36) - 1;
    let used = match n {
        0 => (1 << 54) - (1 << 18),
        1 | 2 => (1 << 54) - 1,
        3 => 0o070000 << HIGH | AB,
        _ => AB,
    };
    ((1 << 60) - 1) & !used
}

/// Whether the package at an address is in memory, has no stray bit and names a field in memory.
pub fn is_sound(memory: &[u64], address: u64) -> bool {
    let length = memory.len() as u64;
    if address + WORDS as u64 > length {
        return false;
    }
    let package = &memory[address as usize..][..WORDS];
    let high = |n: usize| package[n] >> HIGH & ONES_18;
    (0..8).all(|n| package[n] & stray_bits(n) == 0) && high(1) + high(2) <= length
}
