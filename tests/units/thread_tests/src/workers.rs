//! Workers that have a desk to themselves, and the tests of `serve_workers`.
mod alone;
mod door;
mod harness;
pub(crate) mod rows;
pub(crate) mod serving;
