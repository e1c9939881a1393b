//! Floating sums.

use super::{
    addends, exponent, indefinite, infinite, is_negative, kind, limited, size, Kind, ONES_48,
};

/// A sum of two finite addends, as aligned and moved.
pub struct Sum {
    /// The addends as aligned: whether each is negative, and its size of 96 bits.
    pub aligned: [(bool, u128); 2],
    pub negative: bool,
    pub size: u128,
    pub overflowed: bool,
    /// The exponents of the upper and of the lower half.
    pub exponents: [i64; 2],
}

fn align(addend: u64, greater: i64) -> (bool, u128) {
    let places = (greater - exponent(addend)).min(96);
    let size = u128::from(size(addend)) << 48 >> places;
    (is_negative(addend), size)
}

impl Sum {
    pub fn of(addends: [u64; 2]) -> Sum {
        let greater = exponent(addends[0]).max(exponent(addends[1]));
        let aligned = addends.map(|addend| align(addend, greater));
        let [a, b] = aligned.map(|(negative, size)| {
            let size = size as i128;
            if negative {
                -size
            } else {
                size
            }
        });
        let sum = a + b;
        let overflowed = sum.unsigned_abs() >> 96 != 0;
        let upper = greater + i64::from(overflowed);
        Sum {
            aligned,
            negative: sum < 0 || aligned == [(true, 0); 2],
            size: sum.unsigned_abs() >> u32::from(overflowed),
            overflowed,
            exponents: [upper, upper - 48],
        }
    }

    /// The upper half, or the lower.
    fn half(&self, lower: bool) -> u64 {
        let size = (if lower { self.size } else { self.size >> 48 }) as u64 & ONES_48;
        limited(self.negative, self.exponents[usize::from(lower)], size)
    }
}

/// What 30 to 33 give of Xj and Xk.
pub fn result(code: usize, x: [u64; 2]) -> u64 {
    let [a, b] = addends(code, x);
    match [a, b].map(kind) {
        [Kind::Indefinite, _] | [_, Kind::Indefinite] => indefinite(false, 0),
        [Kind::Infinite, Kind::Infinite] if is_negative(a) != is_negative(b) => {
            indefinite(false, 0)
        }
        [Kind::Infinite, _] => infinite(is_negative(a), 0),
        [_, Kind::Infinite] => infinite(is_negative(b), 0),
        _ => Sum::of([a, b]).half(code >= 0o32),
    }
}
