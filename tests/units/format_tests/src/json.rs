//! JSON values, objects and their members.
pub mod brackets;
pub mod nexts;
pub mod objects;
pub mod scalars;
pub mod values;
