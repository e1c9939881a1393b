//! Tozhenab, a proved CDC 6600, called from Rust. The rules of the machine are those of document
//! 01.
//!
//! Two layers make the same ten calls:
//!
//! - the functions of this module take records with named fields and give a [`Result`];
//! - those of [`flat`] take the slices of numbers that the C functions of `tozhenab.h` take, and
//!   give the number of the refusal, or 0.
//!
//! [`layout`] names the places of a flat record's values, and [`limits`] how much a call takes.
//!
//! Any memory, record, address and count gets an answer. After a refusal memories and records are
//! as they were. Where more than one refusal is due, the one with the lowest number is given.

#![deny(unsafe_code, unsafe_op_in_unsafe_fn, missing_docs)]

mod calls;
#[allow(unsafe_code)]
pub mod flat;
pub mod layout;
pub mod limits;
mod record;
mod refusal;

pub use calls::{
    central_turn, central_turns, drop, exchange, peripheral_turn, put, run, run_program, schedule,
    take, Ran, Stint, Taken,
};
pub use record::{CentralRecord, Channel, MachineRecord, Processor};
pub use refusal::Refusal;
