//! Edges of a peripheral instruction: an A, a d, an m and a word of memory at which a code could go
//! wrong.

use super::instruction::Instruction;
use crate::rng::Rng;
use crate::values::{EDGES_12, ONES_12};

/// Both zeros, what is next to them, and both ends of the sign.
const EDGES_A: [u64; 6] = [0, 1, 0o377777, 0o400000, 0o777776, 0o777777];

/// Brings the instruction at P to an edge of its code.
pub fn bring_about(rng: &mut Rng, own: &mut [u16], p: u64, a: &mut u64) {
    match own[p as usize] >> 6 {
        0o04..=0o07 => *a = rng.pick(&EDGES_A),
        0o16 | 0o17 => {
            *a = rng.pick(&EDGES_A);
            let d = rng.below(2);
            own[p as usize] = own[p as usize] & !0o77 | d as u16;
        }
        0o01 | 0o02 => index_to_edge(rng, own, p),
        code @ 0o30..=0o57 => {
            if code >= 0o50 && rng.one_in(2) {
                index_to_edge(rng, own, p);
            }
            *a = rng.pick(&EDGES_A);
            operand_to_edge(rng, own, p);
        }
        _ => {}
    }
}

/// Has m + (d) be 7777 or the first sum that carries round, has (d) be minus one or minus zero, or has
/// the sum lead to a word of the instruction itself.
fn index_to_edge(rng: &mut Rng, own: &mut [u16], p: u64) {
    let d = Instruction::at(own, p, 0).d;
    let index = if d == 0 { 0 } else { own[d].into() };
    let m = match rng.below(6) {
        0 => 0o7777 - index,
        1 => (0o10000 - index) & ONES_12,
        2 | 3 if d as u64 != p => {
            own[d] = rng.pick(&[0o7776, 0o7777]) as u16;
            rng.pick(&[0, 1, 2, 0o100, 0o7777])
        }
        _ => base_to((p + rng.below(2)) & ONES_12, index),
    };
    own[((p + 1) & ONES_12) as usize] = m as u16;
}

/// The m that leads to an address with an index; to address 0 none does but with index 0.
fn base_to(address: u64, index: u64) -> u64 {
    if index <= address {
        address - index
    } else {
        address + 0o7777 - index
    }
}

/// Has the word that the instruction works on be an edge, unless that is its own first word.
fn operand_to_edge(rng: &mut Rng, own: &mut [u16], p: u64) {
    let address = Instruction::at(own, p, 0).address();
    if let Some(address) = address.filter(|&address| address != p) {
        own[address as usize] = rng.pick(&EDGES_12) as u16;
    }
}
