//! What the frames of a connection ask for: the tables row by row, and whole sessions.
pub(crate) mod lumber;
mod lumber_rows;
pub(crate) mod relp;
mod relp_rows;
