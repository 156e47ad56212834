//! Tests of the crates on Splunk's HTTP Event Collector: `hec_ids`, `hec_body` and `hec_session`.
pub mod bodies;
pub mod body_rows;
pub mod id_rows;
pub mod ids;
pub mod replies;
pub mod session_rows;
pub mod sessions;
