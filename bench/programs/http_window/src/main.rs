//! How fast http_edge's window cuts a stream into requests: it is fed requests as a collector gets them, with
//! bodies of 200 bytes, in pieces of some sizes, and each item is looked at as soon as it is whole. A bare copy
//! of the same pieces is made in the same run. Beside them, requests of one long field line in pieces of one
//! byte, since a head that comes so must cost no more a byte than a short one.
//!
//! With the word `times` it does that and prints the figures. With `make`, `feed` or `read` and a count of
//! requests it makes a stream of so many, feeds it to a window in pieces of 8 KiB, or looks at each item as well,
//! and prints nothing, so that what it asks the allocator for can be counted from outside. With no word it does
//! nothing.
#![tactic(auto)]

ghost use Rattle.std.specs.Prelude.{◌≡◌, ◌+◌, ◌≤◌, ◌<◌, ◌^◌, length};
ghost use Rattle.http_edge.specs.Reading.{come};

use anyhow::{Context, bail};
use event_form::FeedFault;
use http_edge::{HttpWindow, ItemRef};
use std::alloc::{AllocError, Global};
use std::env;
use std::hint::black_box;
use std::num::nearest_usize_to_f64;
use std::time::{Duration, Instant};

const REQUESTS: u32 = 20_000;

/// The head of a request to a collector, as a log driver writes it.
const HEAD: &[u8] = b"POST /services/collector/event HTTP/1.1\r\nHost: collector.example.com:8088\r\nUser-Agent: Go-http-client/1.1\r\nAuthorization: Splunk 11111111-2222-3333-4444-555555555555\r\nContent-Type: application/json\r\nContent-Length: 200\r\n\r\n";

/// An event of 100 bytes; a body has two of them.
const EVENT: &[u8] =
    br#"{"event":"<13>Nov 27 02:00:00 host7 app[4711]: connection closed","time":1795744800,"host":"host77"}"#;

const PIECES: [usize; 5] = [8192, 1400, 150, 16, 1];

/// No piece completes more items than this.
const MOST_ITEMS: usize = 8192;

/// How many bytes the long field's value has.
const LONG: usize = 16_000;

const LONG_REQUESTS: u32 = 50;

const ROUNDS: u32 = 5;

/// As many requests as are wanted.
fn stream(alloc: Global, requests: u32) -> Result<Vec<u8>, AllocError> {
    let mut bytes = Vec::new(alloc);
    for _ in 0..requests {
        bytes.extend_from_slice(HEAD)?;
        bytes.extend_from_slice(EVENT)?;
        bytes.extend_from_slice(EVENT)?;
    }
    Ok(bytes)
}

/// As many requests with a long field and no body.
fn long_stream(alloc: Global, requests: u32) -> Result<Vec<u8>, AllocError> {
    let mut bytes = Vec::new(alloc);
    for _ in 0..requests {
        bytes.extend_from_slice(b"GET /services/collector/health HTTP/1.1\r\nCookie: ")?;
        for _ in 0..LONG {
            bytes.push(b'c')?;
        }
        bytes.extend_from_slice(b"\r\n\r\n")?;
    }
    Ok(bytes)
}

/// What a window gave: how many requests, and how many bytes their bodies have.
#[derive(Clone, Copy, PartialEq, Eq, Debug)]
struct Seen {
    requests: u32,
    bodies: u64,
}

// How many bytes the next item's body has.
fn look(window: &mut HttpWindow) -> Option<usize>
    ensures at { window.new.reading.at ≡ window.old.reading.at }
    ensures comes { come window.new.reading ≡ come window.old.reading }
{
    match window.next() {
        Some(ItemRef::Request { head, body }) => {
            black_box(head.minor);
            Some(body.len())
        }
        Some(ItemRef::Continue) => Some(0),
        None => None,
    }
}

/// A window, how many bytes it may still be fed, and what it gave.
#[derive(Drop)]
struct Looking {
    window: HttpWindow,
    left: usize,
    seen: Seen,
    ghost room: { window.reading.at + come window.reading + left ≤ 2 ^ 40 },
}

impl Looking {
    fn new(alloc: Global) -> Result<Looking, AllocError> {
        Ok(Looking {
            window: HttpWindow::new(alloc)?,
            left: 1 << 40,
            seen: Seen {
                requests: 0,
                bodies: 0,
            },
        })
    }

    fn feed(&mut self, piece: &[u8]) -> anyhow::Result<()> {
        if piece.len() > self.left {
            bail!("too many bytes");
        }
        self.left -= piece.len();
        match self.window.feed(piece) {
            Ok(taken) => {
                if taken < piece.len() {
                    bail!("{taken} bytes taken");
                }
            }
            Err(FeedFault::Fault(_)) => bail!("feed: a fault of the stream"),
            Err(FeedFault::NoMemory) => bail!("feed: no memory"),
        }
        Ok(())
    }

    // Looks at each item that waits.
    fn drain(&mut self) {
        for _ in 0..MOST_ITEMS {
            let Some(body) = look(&mut self.window) else {
                break;
            };
            self.seen.requests = self.seen.requests.wrapping_add(1);
            self.seen.bodies = self.seen.bodies.wrapping_add(body as u64);
        }
    }
}

/// What a window gives of the bytes in pieces of a size.
fn read(alloc: Global, bytes: &[u8], size: usize) -> anyhow::Result<Seen>
    requires { 0 < size }
{
    let mut looking = Looking::new(alloc)?;
    for piece in bytes.chunks(size) {
        looking.feed(piece)?;
        looking.drain();
    }
    Ok(looking.seen)
}

// Feeds the bytes, and looks at nothing.
fn feed(alloc: Global, bytes: &[u8]) -> anyhow::Result<()> {
    let mut looking = Looking::new(alloc)?;
    for piece in bytes.chunks(8192) {
        looking.feed(piece)?;
    }
    Ok(())
}

fn copy(bytes: &[u8], size: usize, copy: &mut Vec<u8>) -> anyhow::Result<()>
    requires { 0 < size }
{
    copy.clear();
    for piece in bytes.chunks(size) {
        copy.extend_from_slice(piece)?;
    }
    if black_box(copy.len()) != bytes.len() {
        bail!("{} bytes copied", copy.len());
    }
    Ok(())
}

/// Millions of bytes a second.
fn rate(bytes: usize, taken: Duration) -> f64 {
    nearest_usize_to_f64(bytes) / taken.as_secs_f64() / 1e6
}

/// The shortest time of some readings in pieces of a size, each of which gives so much.
fn time(rt: &HostRuntime, bytes: &[u8], size: usize, due: Seen) -> anyhow::Result<Duration>
    requires { 0 < size }
{
    let mut least = Duration::MAX;
    for _ in 0..ROUNDS {
        let start = Instant::now(rt)?;
        let seen = read(rt.alloc(), bytes, size)?;
        least = least.min(start.elapsed(rt)?);
        if seen != due {
            bail!("{seen:?}");
        }
    }
    Ok(least)
}

/// The shortest time of some copies.
fn time_copy(rt: &HostRuntime, bytes: &[u8], size: usize) -> anyhow::Result<Duration>
    requires { 0 < size }
{
    let mut copied = Vec::new(rt.alloc());
    let mut least = Duration::MAX;
    for _ in 0..ROUNDS {
        let start = Instant::now(rt)?;
        copy(bytes, size, &mut copied)?;
        least = least.min(start.elapsed(rt)?);
    }
    Ok(least)
}

fn times(rt: &HostRuntime) -> anyhow::Result<()> {
    let bytes = stream(rt.alloc(), REQUESTS)?;
    let heads = HEAD.len() * REQUESTS as usize;
    let due = Seen {
        requests: REQUESTS,
        bodies: 200 * u64::from(REQUESTS),
    };
    println!(rt;
        "{REQUESTS} requests, {} bytes, {heads} of them of heads; the best of {ROUNDS} runs, in MB/s",
        bytes.len()
    )?;
    for size in PIECES {
        if size == 0 {
            bail!("no piece");
        }
        let looking = time(rt, &bytes, size, due)?;
        let copying = time_copy(rt, &bytes, size)?;
        println!(rt;
            "    pieces of {size}: HttpWindow {:.0}, of heads {:.0}, a copy {:.0}",
            rate(bytes.len(), looking),
            rate(heads, looking),
            rate(bytes.len(), copying)
        )?;
    }
    let bytes = long_stream(rt.alloc(), LONG_REQUESTS)?;
    let due = Seen {
        requests: LONG_REQUESTS,
        bodies: 0,
    };
    let looking = time(rt, &bytes, 1, due)?;
    println!(rt;
        "    heads of {} bytes in pieces of 1: HttpWindow {:.0}",
        bytes.len() / LONG_REQUESTS as usize,
        rate(bytes.len(), looking)
    )?;
    Ok(())
}

/// Makes a stream of so many requests, feeds it, or reads it.
fn once(alloc: Global, what: &str, requests: u32) -> anyhow::Result<()> {
    let bytes = stream(alloc, requests)?;
    match what {
        "make" => {
            black_box(bytes.len());
        }
        "feed" => feed(alloc, &bytes)?,
        "read" => {
            let seen = read(alloc, &bytes, 8192)?;
            if seen.requests != requests {
                bail!("{seen:?}");
            }
        }
        _ => bail!("nothing is measured by the word {what:?}"),
    }
    Ok(())
}

fn main(rt: HostRuntime) -> anyhow::Result<()> {
    let mut words = env::args(&rt)?.skip(1);
    let Some(what) = words.next() else {
        return Ok(());
    };
    if what.as_str() == "times" {
        return times(&rt);
    }
    let requests = words.next().context("how many requests?")?.parse::<u32>()?;
    once(rt.alloc(), what.as_str(), requests)
}
