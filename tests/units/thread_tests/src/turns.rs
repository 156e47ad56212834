//! Callers of a shared desk: passes that take in threads of their own, and the tests of `spool_turns`.
mod crew;
mod taking;

pub use crew::{Shift, work_together};
pub use taking::{entry, take_many};

#[cfg(test)]
pub(crate) mod answers;
#[cfg(test)]
pub(crate) mod crowd;
#[cfg(test)]
mod gate;
#[cfg(test)]
pub(crate) mod joint;
#[cfg(test)]
pub(crate) mod meanwhile;
#[cfg(test)]
pub(crate) mod pair;
#[cfg(test)]
pub(crate) mod threads;
