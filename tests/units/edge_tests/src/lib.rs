//! Tests of the lowest crates: `foundation`'s bytes, `known_numbers`, the streams and nets of `edge_io`, the sockets of
//! `edge_net` and the disks of `edge_memory` and `edge_file`.
#![tactic(auto)]

#[cfg(test)]
mod accepts;
#[cfg(test)]
mod beside;
#[cfg(test)]
mod bytes;
#[cfg(test)]
mod disks;
#[cfg(test)]
mod files;
#[cfg(test)]
mod lines;
#[cfg(test)]
mod marks;
#[cfg(test)]
mod monitors;
#[cfg(test)]
mod nets;
#[cfg(test)]
mod pages;
#[cfg(test)]
mod proxied;
#[cfg(test)]
mod ranges;
#[cfg(test)]
mod said;
#[cfg(test)]
mod scraped;
#[cfg(test)]
mod sockets;
#[cfg(test)]
mod staged;
#[cfg(test)]
mod streams;
#[cfg(test)]
mod tests;
#[cfg(test)]
mod waits;
