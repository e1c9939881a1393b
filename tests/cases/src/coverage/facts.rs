//! What can be said of a case and of what came of it.

mod central;
mod jobs;
mod lent;
mod peripheral;
mod run;
