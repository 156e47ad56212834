//! Tests of the spool's crates: `disk_cell`'s register, `spool_slots`' groups, `spool_log` and `desk_access`. They are
//! scripts of calls with what each answers and what then stands on the device, and a model of the slots.
#![tactic(auto)]

#[cfg(test)]
mod calls;
#[cfg(test)]
mod desk;
#[cfg(test)]
mod devices;
#[cfg(test)]
mod faults;
#[cfg(test)]
mod free_slot;
#[cfg(test)]
mod groups;
#[cfg(test)]
mod known;
#[cfg(test)]
mod made;
#[cfg(test)]
mod many;
#[cfg(test)]
mod openings;
#[cfg(test)]
mod play;
#[cfg(test)]
mod reading_on;
#[cfg(test)]
mod script;
#[cfg(test)]
mod slots;
#[cfg(test)]
mod stops;
#[cfg(test)]
mod tests;
#[cfg(test)]
mod words;
