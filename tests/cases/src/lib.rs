//! Random cases of every call of Tozhenab.
//!
//! A case is one call and all that the host lends to it. [`generate`] makes the case of a seed and
//! an index, so that any case can be made again alone. [`archive::call`] makes the call on
//! libhost_calls.a. [`answer`] writes what came of it as a line of text, and [`coverage`] counts what was
//! met.

#![forbid(unsafe_code)]

pub mod answer;
pub mod archive;
pub mod case;
mod central;
pub mod coverage;
mod device;
mod fault;
mod floating;
mod generate;
mod instruction;
mod job;
mod package;
mod peripheral;
mod rng;
pub mod stored;
mod values;

pub use case::{Call, Case, Lent};
pub use generate::generate;
