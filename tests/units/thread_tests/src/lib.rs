//! What knows threads: callers of a shared desk, passes that take in threads of their own (measurements use them too), with the
//! tests of `spool_turns`; and workers that have a desk to themselves, with the tests of `serve_workers`.
#![tactic(auto)]

#[cfg(test)]
mod desks;
#[cfg(test)]
mod tests;
mod turns;
#[cfg(test)]
mod workers;

pub use turns::{Shift, entry, take_many, work_together};
