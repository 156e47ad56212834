//! How fast hec_sender writes requests of 128 events of 100 bytes into memory, to a collector that confirms each of
//! them: events whose text is an event object, and others, which are put into one. Only the sender's calls are
//! timed; its entries are made before.
#![tactic(auto)]

mod driven;

use anyhow::bail;
use driven::{Driven, Kind, TEXT, batch};
use event_form::Turn;
use hec_sender::WINDOW;
use std::hint::black_box;
use std::num::nearest_usize_to_f64;
use std::time::{Duration, Instant};

/// How many requests are sent at a time.
const REQUESTS: usize = 2_000;

/// How often they are: short runs say more where other work goes on beside.
const ROUNDS: u32 = 20;

/// How many bytes the head of a request has whose body's length has five digits.
const HEAD_BYTES: usize = 239;

/// The collector's reply to each request.
const REPLY: &[u8] =
    b"HTTP/1.1 200 OK\r\nContent-Type: application/json\r\nContent-Length: 27\r\n\r\n{\"text\":\"Success\",\"code\":0}";

/// Sends one request and has it confirmed, until more entries are asked for. Gives how long it took and how many
/// bytes were written.
fn send_request(rt: &HostRuntime, kind: Kind) -> anyhow::Result<(Duration, usize)> {
    let entries = batch(rt.alloc(), kind)?;
    let mut written = 0usize;
    let start = Instant::now(rt)?;
    let mut driven = Driven::new(rt.alloc(), entries)?;
    for _ in 0..10_000 {
        match driven.turn()? {
            Turn::Write(text) => written = written.wrapping_add(black_box(text.bytes()).len()),
            Turn::Wait => driven.feed(REPLY)?,
            Turn::Confirmed { .. } => {}
            Turn::Need => return Ok((start.elapsed(rt)?, written)),
            _ => bail!("another turn"),
        }
    }
    bail!("the session has no end")
}

/// Sends all requests. Gives how long it took and how many bytes were written.
fn send(rt: &HostRuntime, kind: Kind) -> anyhow::Result<(Duration, usize)> {
    let mut taken = Duration::ZERO;
    let mut written = 0usize;
    for _ in 0..REQUESTS {
        let (time, bytes) = send_request(rt, kind)?;
        taken = taken.saturating_add(time);
        written = written.wrapping_add(bytes);
    }
    Ok((taken, written))
}

/// Measures events of a kind, the best of some rounds, and prints the figures.
fn measure(rt: &HostRuntime, name: &str, kind: Kind, object: u16) -> anyhow::Result<()> {
    let mut best = Duration::MAX;
    for _ in 0..ROUNDS {
        let (taken, written) = send(rt, kind)?;
        if written != REQUESTS * (HEAD_BYTES + WINDOW * object as usize) {
            bail!("{written} bytes written");
        }
        best = best.min(taken);
    }
    let events = nearest_usize_to_f64(REQUESTS * WINDOW);
    println!(rt;
        "{name} of {} bytes: {:.2} million events/s, the best of {ROUNDS} runs of {} requests",
        TEXT.len(),
        events / best.as_secs_f64() / 1e6,
        REQUESTS
    )?;
    Ok(())
}

fn main(rt: HostRuntime) -> anyhow::Result<()> {
    measure(&rt, "event objects", Kind::Object, 100)?;
    // the object {"event":".."}, and a backslash before each of the text's quotation marks
    measure(&rt, "other texts", Kind::Text, 100 + 12 + 12)
}
