//! Tests of whole sessions that forward: what a peer answers, cut in pieces of each size, and what is sent, how the
//! session ends and what stays in the spool.
mod ends;
pub(crate) mod fields;
pub(crate) mod harness;
pub(crate) mod hec_rows;
pub(crate) mod lumberjack_rows;
mod peers;
pub(crate) mod relp_rows;
pub(crate) mod sessions;
mod written;
