//! One session that forwards all that a desk holds.
use crate::peer::{NoRest, peer};
use crate::spool::{Form, confirmed, filled, register_changes};
use anyhow::bail;
use edge_io::Proto;
use forward_core::{Outward, Sent, forward};
use std::time::{Duration, Instant};

/// What a session took.
#[derive(Clone, Copy)]
pub struct Session {
    /// How long it was.
    pub time: Duration,
    /// How many bytes it sent.
    pub sent: u64,
    /// How often it changed the register.
    pub changes: u64,
}

/// Fills a spool with so many events of this form, and times the session that forwards them by the protocol.
pub fn drain(rt: &HostRuntime, proto: Proto, form: Form, events: u32) -> anyhow::Result<Session> {
    let alloc = rt.alloc();
    let mut desk = filled(alloc, form, events)?;
    let mut link = peer(alloc, proto, events)?;
    let outward = Outward {
        proto,
        token: 1,
        channel: 2,
        polls: 1,
    };
    let before = register_changes(&desk);
    let start = Instant::now(rt)?;
    let ending = forward(alloc, &mut link, &outward, None, &mut desk, &mut NoRest);
    let time = start.elapsed(rt)?;
    if ending != Sent::Drained || confirmed(&desk) != u64::from(events) {
        bail!("{} of {events} confirmed", confirmed(&desk));
    }
    Ok(Session {
        time,
        sent: link.sink.bytes(),
        changes: register_changes(&desk).saturating_sub(before),
    })
}
