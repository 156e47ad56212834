//! Tests of the crates that speak the protocols, in pieces of each size: those that cut streams into frames,
//! `relp_frame` and `lumber_frame`; the sessions above them, `relp_session` and `lumber_session`; and the senders,
//! `relp_sender`, `lumber_sender` and `hec_sender`; and heads of proxies, `proxy_head`. What isn't as a row has it ends the process, also a lack of memory.
#![tactic(auto)]

#[cfg(test)]
mod heads;
#[cfg(test)]
mod parts;
#[cfg(test)]
mod receiving;
#[cfg(test)]
mod sending;
#[cfg(test)]
mod streams;
#[cfg(test)]
mod tests;
