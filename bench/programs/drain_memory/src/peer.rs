//! A peer in memory that takes all, and acknowledges it: its answers stand ready, and a read gives the next ones.
ghost use Rattle.std.specs.Prelude.{◌≡◌};

use anyhow::bail;
use edge_io::{Both, MemSource, Object, Pause, Proto, Sink, WriteFault};
use hec_session::success_body;
use http_edge::write_reply;
use lumber_frame::ack_frame;
use relp_frame::write_parts;
use std::alloc::{AllocError, Global};

/// How many entries a window of Lumberjack has, and a request of the collector.
const RUN: u32 = 128;

/// A sink that takes all, keeps nothing, and counts the bytes.
#[derive(Drop)]
pub struct Taken {
    bytes: u64,
}

impl Taken {
    /// How many bytes were written.
    pub fn bytes(&self) -> u64 {
        self.bytes
    }
}

impl Object for Taken {
    ghost same = { λ _ _. Unit {0} };

    ghost same_refl = { λ _. tt };

    ghost same_trans = { λ _ _ _ _ _. tt };
}

impl Sink for Taken {
    ghost use Rattle.std.specs.Prelude.{None};

    ghost taken = { λ _. None };

    ghost write_faults = { λ _. 0 };

    ghost write_apart = { λ _ _. Unit {0} };

    ghost apart_refl = { λ _. tt };

    ghost apart_trans = { λ _ _ _ _ _. tt };

    fn write(&mut self, piece: &[u8]) -> Result<usize, WriteFault> {
        self.bytes = self.bytes.wrapping_add(piece.len() as u64);
        Ok(piece.len())
    }
}

/// A pause that takes no time. Nothing is asked for twice here.
#[derive(Drop)]
pub struct NoRest;

impl Object for NoRest {
    ghost same = { λ _ _. Unit {0} };

    ghost same_refl = { λ _. tt };

    ghost same_trans = { λ _ _ _ _ _. tt };
}

impl Pause for NoRest {
    ghost pause_apart = { λ _ _. Unit {0} };

    fn pause(&mut self) {}

    ghost pause_refl = { λ _. tt };

    ghost pause_trans = { λ _ _ _ _ _. tt };
}

/// An answer to the frame that opens the session, and one to each frame of an event.
fn relp_answers(alloc: Global, events: u32) -> anyhow::Result<Vec<u8>> {
    let mut out = Vec::with_capacity(alloc, 24 * (events as usize + 1))?;
    for number in 0..events {
        write_parts(number % 999_999_998 + 1, b"rsp", b"200 OK", &mut out)?;
    }
    write_parts(events % 999_999_998 + 1, b"rsp", b"200 OK", &mut out)?;
    Ok(out)
}

/// An acknowledgment of each window.
fn lumber_answers(alloc: Global, events: u32) -> anyhow::Result<Vec<u8>> {
    let mut out = Vec::new(alloc);
    for _ in 0..events / RUN {
        out.extend_from_slice(&ack_frame(RUN))?;
    }
    if events % RUN > 0 {
        out.extend_from_slice(&ack_frame(events % RUN))?;
    }
    Ok(out)
}

/// A reply of success, without an id.
fn success(alloc: Global) -> Result<Vec<u8>, AllocError> {
    let body = success_body(alloc, None)?;
    let mut text = Vec::new(alloc);
    write_reply(200, false, body.bytes(), &mut text)?;
    Ok(text)
}

/// Success for each request.
fn hec_answers(alloc: Global, events: u32) -> anyhow::Result<Vec<u8>> {
    let text = success(alloc)?;
    let mut out = Vec::new(alloc);
    for _ in 0..events / RUN {
        out.extend_from_slice(&text)?;
    }
    if events % RUN > 0 {
        out.extend_from_slice(&text)?;
    }
    Ok(out)
}

fn answers(alloc: Global, proto: Proto, events: u32) -> anyhow::Result<Vec<u8>> {
    if events > 900_000_000 {
        bail!("too many events");
    }
    match proto {
        Proto::Relp => relp_answers(alloc, events),
        Proto::Lumberjack => lumber_answers(alloc, events),
        Proto::Hec => hec_answers(alloc, events),
    }
}

/// The link to a peer that takes and acknowledges so many events.
pub fn peer(alloc: Global, proto: Proto, events: u32) -> anyhow::Result<Both<MemSource, Taken>> {
    Ok(Both {
        source: MemSource::of(answers(alloc, proto, events)?, 1 << 20, Vec::new(alloc)),
        sink: Taken { bytes: 0 },
    })
}
