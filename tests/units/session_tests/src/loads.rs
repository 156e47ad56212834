//! Tests of loads: their numbers and lines by each protocol, and the replay and the drain of one of them by `attend` and
//! `forward` alone.
pub(crate) mod apart;
pub(crate) mod rows;
