//! Tests of whole sessions: of `forward_core`, and of `load_run`, which has one store and one forward. What isn't as a
//! row has it ends the process, also a lack of memory.
#![tactic(auto)]

#[cfg(test)]
mod forwarding;
#[cfg(test)]
mod loads;
#[cfg(test)]
mod tests;
