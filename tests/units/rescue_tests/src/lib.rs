//! Tests of a rescue over devices in memory: what is printed of each kind of damage, that the device stays as it was
//! byte for byte, reads and writes that fail, and layouts that are given.
#![tactic(auto)]

#[cfg(test)]
mod damage;
#[cfg(test)]
mod devices;
#[cfg(test)]
mod failing;
#[cfg(test)]
mod restoring;
#[cfg(test)]
mod tests;
