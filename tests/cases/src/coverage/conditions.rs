//! Conditions that have to be met, beside codes, stops and refusals.

use super::Seen;

mod central;
mod device;
mod jobs;
mod lent;
mod peripheral;
mod run;

/// A name and what it says of a case.
pub type Condition = (&'static str, fn(&Seen) -> bool);

/// By what they speak of. A name begins with the refusal that was given, if the condition is one of a
/// refusal.
const GROUPS: [&[Condition]; 6] = [
    lent::CONDITIONS,
    jobs::CONDITIONS,
    central::CONDITIONS,
    peripheral::CONDITIONS,
    run::CONDITIONS,
    device::CONDITIONS,
];

/// All of them, in the order in which they are printed.
pub fn conditions() -> impl Iterator<Item = &'static Condition> {
    GROUPS.into_iter().flatten()
}
