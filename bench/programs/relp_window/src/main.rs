//! How fast relp_frame's window cuts a stream into frames: it is fed frames of 100 bytes in pieces of some
//! sizes, and each frame is looked at as soon as it is whole. `RelpReader` does the same, and a bare copy of
//! the same pieces is made, in the same run.
#![tactic(auto)]

ghost use Rattle.std.specs.Prelude.{◌+◌, ◌≤◌, ◌<◌, ◌^◌, length};

use anyhow::bail;
use relp_frame::{RelpReader, RelpWindow};
use std::alloc::{AllocError, Global};
use std::hint::black_box;
use std::num::nearest_usize_to_f64;
use std::time::{Duration, Instant};

const FRAMES: u32 = 300_000;

// Without the LF.
const DATA: &[u8] =
    b"<13>Nov 27 02:00:00 host7 app[4711]: connection from 192.0.2.17:40312 closed 000000";

const PIECES: [usize; 4] = [8192, 150, 16, 1];

// No piece completes more frames than this.
const MOST_FRAMES: usize = 8192;

const ROUNDS: u32 = 5;

/// As many `syslog` frames of 100 bytes as are wanted.
fn stream(alloc: Global, frames: u32) -> Result<Vec<u8>, AllocError> {
    let mut bytes = Vec::new(alloc);
    for number in 0..frames {
        let txnr = 10_000 + number % 90_000;
        bytes.extend_from_slice(txnr.to_string(alloc)?.as_bytes())?;
        bytes.extend_from_slice(b" syslog 83 ")?;
        bytes.extend_from_slice(DATA)?;
        bytes.push(b'\n')?;
    }
    Ok(bytes)
}

/// A reader, how many bytes it may still be fed, and what was taken from it.
#[derive(Drop)]
struct Feeding {
    reader: RelpReader,
    left: usize,
    frames: u32,
    data: u64,
    ghost room: { reader.at + length reader.rest + left ≤ 2 ^ 40 },
}

impl Feeding {
    fn new(alloc: Global) -> Feeding {
        Feeding {
            reader: RelpReader::new(alloc),
            left: 1 << 40,
            frames: 0,
            data: 0,
        }
    }

    fn feed(&mut self, piece: &[u8]) -> anyhow::Result<()> {
        if piece.len() > self.left {
            bail!("too many bytes");
        }
        self.left -= piece.len();
        match self.reader.feed(piece) {
            Ok(()) => {}
            Err(_) => bail!("feed: the piece was refused"),
        }
        for _ in 0..MOST_FRAMES {
            let Some(frame) = self.reader.take() else {
                break;
            };
            self.frames = self.frames.wrapping_add(1);
            self.data = self.data.wrapping_add(frame.body.bytes().len() as u64);
            black_box(frame.txnr);
        }
        Ok(())
    }
}

/// The same of a window.
#[derive(Drop)]
struct Looking {
    window: RelpWindow,
    left: usize,
    frames: u32,
    data: u64,
    ghost room: { window.at + length window.rest + left ≤ 2 ^ 40 },
}

impl Looking {
    fn new(alloc: Global) -> Result<Looking, AllocError> {
        Ok(Looking {
            window: RelpWindow::new(alloc)?,
            left: 1 << 40,
            frames: 0,
            data: 0,
        })
    }

    fn feed(&mut self, piece: &[u8]) -> anyhow::Result<()> {
        if piece.len() > self.left {
            bail!("too many bytes");
        }
        self.left -= piece.len();
        match self.window.feed(piece) {
            Ok(taken) => {
                if taken < piece.len() {
                    bail!("{taken} bytes taken");
                }
            }
            Err(_) => bail!("feed: the piece was refused"),
        }
        for _ in 0..MOST_FRAMES {
            let Some(frame) = self.window.next() else {
                break;
            };
            self.frames = self.frames.wrapping_add(1);
            self.data = self.data.wrapping_add(frame.body.len() as u64);
            black_box(frame.txnr);
        }
        Ok(())
    }
}

fn read(alloc: Global, bytes: &[u8], size: usize) -> anyhow::Result<()>
    requires { 0 < size }
{
    let mut feeding = Feeding::new(alloc);
    for piece in bytes.chunks(size) {
        feeding.feed(piece)?;
    }
    if feeding.frames != FRAMES || feeding.data != 83 * u64::from(FRAMES) {
        bail!("{} frames, {} bytes", feeding.frames, feeding.data);
    }
    Ok(())
}

fn look(alloc: Global, bytes: &[u8], size: usize) -> anyhow::Result<()>
    requires { 0 < size }
{
    let mut looking = Looking::new(alloc)?;
    for piece in bytes.chunks(size) {
        looking.feed(piece)?;
    }
    if looking.frames != FRAMES || looking.data != 83 * u64::from(FRAMES) {
        bail!("{} frames, {} bytes", looking.frames, looking.data);
    }
    Ok(())
}

fn copy(bytes: &[u8], size: usize, copy: &mut Vec<u8>) -> anyhow::Result<()>
    requires { 0 < size }
{
    copy.clear();
    for piece in bytes.chunks(size) {
        copy.extend_from_slice(piece)?;
    }
    if black_box(copy.len()) != bytes.len() {
        bail!("{} bytes copied", copy.len());
    }
    Ok(())
}

/// Millions of bytes a second.
fn rate(bytes: &[u8], taken: Duration) -> f64 {
    nearest_usize_to_f64(bytes.len()) / taken.as_secs_f64() / 1e6
}

fn main(rt: HostRuntime) -> anyhow::Result<()> {
    let alloc = rt.alloc();
    let bytes = stream(alloc, FRAMES)?;
    let mut copied = Vec::new(alloc);
    println!(rt;
        "{FRAMES} frames, {} bytes, the best of {ROUNDS} runs, in MB/s",
        bytes.len()
    )?;
    for size in PIECES {
        if size == 0 {
            bail!("no piece");
        }
        let mut looking = Duration::MAX;
        let mut reading = Duration::MAX;
        let mut copying = Duration::MAX;
        for _ in 0..ROUNDS {
            let start = Instant::now(&rt)?;
            look(alloc, &bytes, size)?;
            looking = looking.min(start.elapsed(&rt)?);
            let start = Instant::now(&rt)?;
            read(alloc, &bytes, size)?;
            reading = reading.min(start.elapsed(&rt)?);
            let start = Instant::now(&rt)?;
            copy(&bytes, size, &mut copied)?;
            copying = copying.min(start.elapsed(&rt)?);
        }
        let looking = rate(&bytes, looking);
        let reading = rate(&bytes, reading);
        let copying = rate(&bytes, copying);
        println!(rt;
            "    pieces of {size}: RelpWindow {looking:.0}, RelpReader {reading:.0}, a copy {copying:.0}; window to copy {:.3}",
            looking / copying
        )?;
    }
    Ok(())
}
