//! Tests of the messages of faults: each is the text of the note that the program prints of it.
#![tactic(auto)]

#[cfg(test)]
mod notes_of;
#[cfg(test)]
mod tests;
