//! Tests of a move between two spools on disks in memory: its answers, runs that are stopped at each call of either
//! disk, a target that fills up, a source with stretches known out of order, two sources into one target, and a target
//! that is drained between two runs.
#![tactic(auto)]

#[cfg(test)]
mod answers;
#[cfg(test)]
mod many;
#[cfg(test)]
mod spools;
#[cfg(test)]
mod stops;
#[cfg(test)]
mod tests;
