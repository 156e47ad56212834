//! Tests of a skip over spools on disks in memory: what is printed and left, numbers that aren't pending, as many
//! stretches as there may be, writes and calls of the disk that fail, and a stop at each of these calls.
#![tactic(auto)]

#[cfg(test)]
mod answers;
#[cfg(test)]
mod failing;
#[cfg(test)]
mod spools;
#[cfg(test)]
mod tests;
