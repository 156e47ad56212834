//! How fast lumber_sender writes windows of 128 events of 100 bytes into memory, to a receiver that acknowledges
//! each window: events whose text is a JSON object, which is the payload, and others, which are put into one. Only
//! the sender's calls are timed; its entries are made before.
#![tactic(auto)]

mod driven;

use anyhow::bail;
use driven::{Driven, Kind, TEXT, batch};
use event_form::Turn;
use lumber_frame::ack_frame;
use lumber_sender::WINDOW;
use std::hint::black_box;
use std::num::nearest_usize_to_f64;
use std::time::{Duration, Instant};

/// How many windows are sent at a time.
const WINDOWS: usize = 2_000;

/// How often they are: short runs say more where other work goes on beside.
const ROUNDS: u32 = 20;

/// Sends one window and has it acknowledged, until more entries are asked for. Gives how long it took and how many
/// bytes were written.
fn send_window(rt: &HostRuntime, kind: Kind) -> anyhow::Result<(Duration, usize)> {
    let entries = batch(rt.alloc(), kind)?;
    let ack = ack_frame(WINDOW as u32);
    let mut written = 0usize;
    let start = Instant::now(rt)?;
    let mut driven = Driven::new(rt.alloc(), entries)?;
    for _ in 0..10_000 {
        match driven.turn()? {
            Turn::Write(text) => written = written.wrapping_add(black_box(text.bytes()).len()),
            Turn::Wait => driven.feed(&ack)?,
            Turn::Confirmed { .. } => {}
            Turn::Need => return Ok((start.elapsed(rt)?, written)),
            _ => bail!("another turn"),
        }
    }
    bail!("the window has no end")
}

/// Sends all windows. Gives how long it took and how many bytes were written.
fn send(rt: &HostRuntime, kind: Kind) -> anyhow::Result<(Duration, usize)> {
    let mut taken = Duration::ZERO;
    let mut written = 0usize;
    for _ in 0..WINDOWS {
        let (time, bytes) = send_window(rt, kind)?;
        taken = taken.saturating_add(time);
        written = written.wrapping_add(bytes);
    }
    Ok((taken, written))
}

/// Measures events of a kind, the best of some rounds, and prints the figures.
fn measure(rt: &HostRuntime, name: &str, kind: Kind, payload: u16) -> anyhow::Result<()> {
    let mut best = Duration::MAX;
    for _ in 0..ROUNDS {
        let (taken, written) = send(rt, kind)?;
        if written != WINDOWS * (6 + WINDOW * (10 + payload as usize)) {
            bail!("{written} bytes written");
        }
        best = best.min(taken);
    }
    let events = nearest_usize_to_f64(WINDOWS * WINDOW);
    println!(rt;
        "{name} of {} bytes: {:.2} million events/s, the best of {ROUNDS} runs of {} windows",
        TEXT.len(),
        events / best.as_secs_f64() / 1e6,
        WINDOWS
    )?;
    Ok(())
}

fn main(rt: HostRuntime) -> anyhow::Result<()> {
    measure(&rt, "JSON objects", Kind::Object, 100)?;
    measure(&rt, "JSON objects that are looked at", Kind::Looked, 100)?;
    // the object {"message":".."}, and a backslash before each of the text's quotation marks
    measure(&rt, "other texts", Kind::Text, 100 + 14 + 12)
}
