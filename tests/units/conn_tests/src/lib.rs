//! Tests of whole connections: what senders of each protocol send, cut in pieces of each size, and what is stored,
//! answered and reported for it.
#![tactic(auto)]

#[cfg(test)]
mod asked;
#[cfg(test)]
mod claims;
#[cfg(test)]
mod connections;
#[cfg(test)]
mod ends;
#[cfg(test)]
mod faults;
#[cfg(test)]
mod fields;
#[cfg(test)]
mod harness;
#[cfg(test)]
mod hec_endings;
#[cfg(test)]
mod hec_past;
#[cfg(test)]
mod hec_refused;
#[cfg(test)]
mod hec_rows;
#[cfg(test)]
mod hec_unsaid;
#[cfg(test)]
mod lumberjack_endings;
#[cfg(test)]
mod lumberjack_rows;
#[cfg(test)]
mod reads;
#[cfg(test)]
mod relp_endings;
#[cfg(test)]
mod relp_rows;
#[cfg(test)]
mod relp_runs;
#[cfg(test)]
mod silent;
