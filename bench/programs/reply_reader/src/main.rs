//! How fast http_reply's reader reads replies as a collector writes them, in pieces of some sizes; and replies with one
//! long field line in pieces of one byte, since a head that comes so must cost no more a byte than a short one.
#![tactic(auto)]

ghost use Rattle.std.specs.Prelude.{◌+◌, ◌≤◌, ◌<◌, ◌^◌};
ghost use Rattle.http_reply.specs.Reading.{come};

use anyhow::bail;
use event_form::FeedFault;
use http_reply::ReplyReader;
use std::alloc::{AllocError, Global};
use std::num::nearest_usize_to_f64;
use std::time::{Duration, Instant};

/// A reply of a collector.
const REPLY: &[u8] = b"HTTP/1.1 200 OK\r\nContent-Type: application/json\r\nContent-Length: 27\r\n\r\n\
    {\"text\":\"Success\",\"code\":0}";

const REPLIES: u32 = 20_000;

const PIECES: [usize; 5] = [65_536, 8192, 150, 16, 1];

/// How many bytes the long field's value has.
const LONG: usize = 16_000;

const LONG_REPLIES: u32 = 50;

const ROUNDS: u32 = 5;

/// As many replies as are wanted.
fn stream(alloc: Global, replies: u32) -> Result<Vec<u8>, AllocError> {
    let mut bytes = Vec::new(alloc);
    for _ in 0..replies {
        bytes.extend_from_slice(REPLY)?;
    }
    Ok(bytes)
}

/// As many replies with a long field and no body.
fn long_stream(alloc: Global, replies: u32) -> Result<Vec<u8>, AllocError> {
    let mut bytes = Vec::new(alloc);
    for _ in 0..replies {
        bytes.extend_from_slice(b"HTTP/1.1 200 OK\r\nContent-Length: 0\r\nSet-Cookie: ")?;
        for _ in 0..LONG {
            bytes.push(b'c')?;
        }
        bytes.extend_from_slice(b"\r\n\r\n")?;
    }
    Ok(bytes)
}

/// A reader, how many bytes it may still be fed, and how many replies it gave.
#[derive(Drop)]
struct Hearing {
    reader: ReplyReader,
    left: usize,
    replies: u32,
    ghost room: { reader.at + come reader + left ≤ 2 ^ 40 },
}

impl Hearing {
    fn new(alloc: Global) -> Hearing {
        Hearing {
            reader: ReplyReader::new(alloc),
            left: 1 << 40,
            replies: 0,
        }
    }

    fn feed(&mut self, piece: &[u8]) -> anyhow::Result<()> {
        if piece.len() > self.left {
            bail!("too many bytes");
        }
        self.left -= piece.len();
        match self.reader.feed(piece) {
            Ok(()) => Ok(()),
            Err(FeedFault::Fault(_)) => bail!("feed: a fault of the stream"),
            Err(FeedFault::NoMemory) => bail!("feed: no memory"),
        }
    }

    // Takes the replies that wait.
    fn drain(&mut self) {
        for _ in 0..u32::MAX {
            let Some(_) = self.reader.take() else {
                break;
            };
            self.replies = self.replies.wrapping_add(1);
        }
    }
}

/// How many replies the bytes are, in pieces of a size.
fn read(alloc: Global, bytes: &[u8], size: usize) -> anyhow::Result<u32>
    requires { 0 < size }
{
    let mut hearing = Hearing::new(alloc);
    for piece in bytes.chunks(size) {
        hearing.feed(piece)?;
        hearing.drain();
    }
    Ok(hearing.replies)
}

/// Millions of bytes a second.
fn rate(bytes: usize, taken: Duration) -> f64 {
    nearest_usize_to_f64(bytes) / taken.as_secs_f64() / 1e6
}

/// The shortest time of some readings in pieces of a size, each of which gives so many replies.
fn time(rt: &HostRuntime, bytes: &[u8], size: usize, due: u32) -> anyhow::Result<Duration>
    requires { 0 < size }
{
    let mut least = Duration::MAX;
    for _ in 0..ROUNDS {
        let start = Instant::now(rt)?;
        let replies = read(rt.alloc(), bytes, size)?;
        least = least.min(start.elapsed(rt)?);
        if replies != due {
            bail!("{replies} replies");
        }
    }
    Ok(least)
}

fn main(rt: HostRuntime) -> anyhow::Result<()> {
    let bytes = stream(rt.alloc(), REPLIES)?;
    println!(rt; "{REPLIES} replies, {} bytes; the best of {ROUNDS} runs, in MB/s", bytes.len())?;
    for size in PIECES {
        if size == 0 {
            bail!("no piece");
        }
        let hearing = time(&rt, &bytes, size, REPLIES)?;
        println!(rt; "    pieces of {size}: ReplyReader {:.1}", rate(bytes.len(), hearing))?;
    }
    let bytes = long_stream(rt.alloc(), LONG_REPLIES)?;
    let hearing = time(&rt, &bytes, 1, LONG_REPLIES)?;
    println!(rt;
        "    heads of {} bytes in pieces of 1: ReplyReader {:.1}",
        bytes.len() / LONG_REPLIES as usize,
        rate(bytes.len(), hearing)
    )?;
    Ok(())
}
