//! Tests of what the collector speaks and says: `http_edge` and `http_reply`, and `hec_body`, `hec_ids` and
//! `hec_session`.
#![tactic(auto)]

#[cfg(test)]
mod hec;
#[cfg(test)]
mod http;
#[cfg(test)]
mod rows;
#[cfg(test)]
mod spelling;
#[cfg(test)]
mod tests;
