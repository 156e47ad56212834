//! How fast relp_frame's reader cuts a stream into frames: it is fed frames of 100 bytes in pieces of 8 KiB,
//! and each frame is taken as soon as it is whole. A copy of the same bytes stands beside it.
#![tactic(auto)]

ghost use Rattle.std.specs.Prelude.{◌+◌, ◌≤◌, ◌^◌, length};

use anyhow::bail;
use relp_frame::RelpReader;
use std::alloc::{AllocError, Global};
use std::hint::black_box;
use std::num::nearest_usize_to_f64;
use std::time::{Duration, Instant};

const FRAMES: u32 = 1_000_000;

// Without the LF.
const DATA: &[u8] =
    b"<13>Nov 27 02:00:00 host7 app[4711]: connection from 192.0.2.17:40312 closed 000000";

const PIECE: usize = 8192;

const ROUNDS: u32 = 5;

/// So many `syslog` frames of 100 bytes.
fn stream(alloc: Global, frames: u32) -> Result<Vec<u8>, AllocError> {
    let mut bytes = Vec::new(alloc);
    for number in 0..frames {
        let txnr = 10_000 + number % 90_000;
        bytes.extend_from_slice(txnr.to_string(alloc)?.as_bytes())?;
        bytes.extend_from_slice(b" syslog 83 ")?;
        bytes.extend_from_slice(DATA)?;
        bytes.push(b'\n')?;
    }
    Ok(bytes)
}

/// A reader, how many bytes it may still be fed, and what was taken from it.
#[derive(Drop)]
struct Feeding {
    reader: RelpReader,
    left: usize,
    frames: u32,
    data: u64,
    ghost room: { reader.at + length reader.rest + left ≤ 2 ^ 40 },
}

impl Feeding {
    fn new(alloc: Global) -> Feeding {
        Feeding {
            reader: RelpReader::new(alloc),
            left: 1 << 40,
            frames: 0,
            data: 0,
        }
    }

    fn feed(&mut self, piece: &[u8]) -> anyhow::Result<()> {
        if piece.len() > self.left {
            bail!("too many bytes");
        }
        self.left -= piece.len();
        match self.reader.feed(piece) {
            Ok(()) => {}
            Err(_) => bail!("feed: the piece was refused"),
        }
        for _ in 0..PIECE {
            let Some(frame) = self.reader.take() else {
                break;
            };
            self.frames = self.frames.wrapping_add(1);
            self.data = self.data.wrapping_add(frame.body.bytes().len() as u64);
            black_box(frame.txnr);
        }
        Ok(())
    }
}

/// Millions of bytes a second.
fn rate(bytes: &[u8], taken: Duration) -> f64 {
    nearest_usize_to_f64(bytes.len()) / taken.as_secs_f64() / 1e6
}

fn main(rt: HostRuntime) -> anyhow::Result<()> {
    let alloc = rt.alloc();
    let bytes = stream(alloc, FRAMES)?;
    let mut copy = Vec::new(alloc);
    let mut reading = Duration::MAX;
    let mut copying = Duration::MAX;
    for _ in 0..ROUNDS {
        let start = Instant::now(&rt)?;
        let mut feeding = Feeding::new(alloc);
        for piece in bytes.chunks(PIECE) {
            feeding.feed(piece)?;
        }
        reading = reading.min(start.elapsed(&rt)?);
        if feeding.frames != FRAMES || feeding.data != 83 * u64::from(FRAMES) {
            bail!("{} frames, {} bytes", feeding.frames, feeding.data);
        }
        let start = Instant::now(&rt)?;
        copy.clear();
        for piece in bytes.chunks(PIECE) {
            copy.extend_from_slice(piece)?;
        }
        copying = copying.min(start.elapsed(&rt)?);
        if black_box(copy.len()) != bytes.len() {
            bail!("{} bytes copied", copy.len());
        }
    }
    let reading = rate(&bytes, reading);
    let copying = rate(&bytes, copying);
    println!(rt;
        "{FRAMES} frames, {} bytes, in pieces of {PIECE}, the best of {ROUNDS} runs",
        bytes.len()
    )?;
    println!(rt; "    RelpReader: {reading:.0} MB/s")?;
    println!(rt;
        "    a copy of the bytes: {copying:.0} MB/s, ratio {:.3}",
        reading / copying
    )?;
    Ok(())
}
