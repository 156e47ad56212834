//! How fast lumber_frame's window cuts windows of short JSON frames that come in pieces into frames, each
//! looked at as soon as it is whole. The reader, which builds them, and a bare copy of the same pieces
//! stand beside it.
#![tactic(auto)]

ghost use Rattle.std.specs.Prelude.{◌+◌, ◌≤◌, ◌<◌, ◌^◌, length};

use anyhow::bail;
use lumber_frame::{
    LumberFrame, LumberReader, LumberRef, LumberWindow, Side, window_frame, write_json,
};
use std::alloc::{AllocError, Global};
use std::hint::black_box;
use std::num::nearest_usize_to_f64;
use std::rt::Clock;
use std::time::{Duration, Instant};

/// How many frames a window of Lumberjack's has.
const FRAMES: u32 = 2048;

/// How many such windows the stream has.
const WINDOWS: u32 = 4;

/// How many bytes a payload has.
const PAYLOAD: usize = 100;

/// How many bytes come at a time, and how often the stream is read so: short runs say more where other
/// work goes on beside.
const PIECES: [(usize, u32); 5] = [(8192, 400), (1400, 200), (150, 200), (16, 50), (1, 10)];

/// What was taken, and how many bytes may still be fed.
#[derive(Drop)]
struct Reading {
    reader: LumberReader,
    left: usize,
    frames: u32,
    payloads: u64,
    ghost room: { reader.at + length reader.rest + left ≤ 2 ^ 40 },
}

impl Reading {
    fn new(alloc: Global) -> Reading {
        Reading {
            reader: LumberReader::new(alloc, Side::Receiver),
            left: 1 << 40,
            frames: 0,
            payloads: 0,
        }
    }

    fn feed(&mut self, piece: &[u8]) -> anyhow::Result<()> {
        if piece.len() > self.left {
            bail!("too many bytes");
        }
        self.left -= piece.len();
        if self.reader.feed(piece).is_err() {
            bail!("the reader takes no more");
        }
        for _ in 0..u32::MAX {
            let Some(frame) = self.reader.take() else {
                break;
            };
            if let LumberFrame::Json { seq, text } = &frame {
                self.frames = self.frames.wrapping_add(1);
                self.payloads = self.payloads.wrapping_add(text.bytes().len() as u64);
                black_box(*seq);
            }
        }
        Ok(())
    }
}

/// The same of a window.
#[derive(Drop)]
struct Looking {
    window: LumberWindow,
    left: usize,
    frames: u32,
    payloads: u64,
    ghost room: { window.at + length window.rest + left ≤ 2 ^ 40 },
}

impl Looking {
    fn new(alloc: Global) -> Result<Looking, AllocError> {
        Ok(Looking {
            window: LumberWindow::new(alloc)?,
            left: 1 << 40,
            frames: 0,
            payloads: 0,
        })
    }

    fn feed(&mut self, piece: &[u8]) -> anyhow::Result<()> {
        if piece.len() > self.left {
            bail!("too many bytes");
        }
        self.left -= piece.len();
        match self.window.feed(piece) {
            Ok(taken) => {
                if taken < piece.len() {
                    bail!("{taken} bytes taken");
                }
            }
            Err(_) => bail!("feed: the piece was refused"),
        }
        for _ in 0..u32::MAX {
            let Some(frame) = self.window.next() else {
                break;
            };
            if let LumberRef::Json { seq, text } = frame {
                self.frames = self.frames.wrapping_add(1);
                self.payloads = self.payloads.wrapping_add(text.len() as u64);
                black_box(seq);
            }
        }
        Ok(())
    }
}

/// A payload.
fn payload(alloc: Global) -> Result<Vec<u8>, AllocError> {
    let mut bytes = Vec::from_slice(
        alloc,
        br#"{"message":"connection from 192.0.2.17 accepted","level":"info","pid":4711,"text":""#,
    )?;
    bytes.resize(PAYLOAD - 2, b'x')?;
    bytes.extend_from_slice(br#""}"#)?;
    Ok(bytes)
}

/// The stream: windows of JSON frames, numbered from 1.
fn stream(alloc: Global) -> Result<Vec<u8>, AllocError> {
    let payload = payload(alloc)?;
    let mut bytes = Vec::new(alloc);
    for _ in 0..WINDOWS {
        bytes.extend_from_slice(&window_frame(FRAMES))?;
        for seq in 1..=FRAMES {
            if payload.len() < 1 << 20 {
                write_json(seq, &payload, &mut bytes)?;
            }
        }
    }
    Ok(bytes)
}

/// Reads the stream by a reader, and counts its data frames and the bytes of their payloads.
fn read(alloc: Global, stream: &[u8], size: usize) -> anyhow::Result<(u32, u64)>
    requires { 0 < size }
{
    let mut reading = Reading::new(alloc);
    for piece in stream.chunks(size) {
        reading.feed(piece)?;
    }
    Ok((reading.frames, reading.payloads))
}

/// The same by a window.
fn look(alloc: Global, stream: &[u8], size: usize) -> anyhow::Result<(u32, u64)>
    requires { 0 < size }
{
    let mut looking = Looking::new(alloc)?;
    for piece in stream.chunks(size) {
        looking.feed(piece)?;
    }
    Ok((looking.frames, looking.payloads))
}

/// Copies the stream, piece by piece, into a buffer that holds one.
fn copy(stream: &[u8], size: usize, buffer: &mut Vec<u8>) -> Result<(), AllocError>
    requires { 0 < size }
{
    for piece in stream.chunks(size) {
        buffer.clear();
        buffer.extend_from_slice(piece)?;
        black_box(buffer.as_slice());
    }
    Ok(())
}

/// Millions of bytes a second.
fn rate(bytes: &[u8], taken: Duration) -> f64 {
    nearest_usize_to_f64(bytes.len()) / taken.as_secs_f64() / 1e6
}

/// Measures pieces of one size.
fn measure<R: Clock + Print + AllocGlobal>(rt: &R, stream: &[u8], size: usize, rounds: u32) -> anyhow::Result<()>
    requires { 0 < size }
{
    let alloc = rt.alloc();
    let mut buffer = Vec::with_capacity(alloc, 8192)?;
    let mut reading = Duration::MAX;
    let mut looking = Duration::MAX;
    let mut copying = Duration::MAX;
    let wanted = (
        WINDOWS * FRAMES,
        u64::from(WINDOWS) * u64::from(FRAMES) * PAYLOAD as u64,
    );
    for _ in 0..rounds {
        let start = Instant::now(rt)?;
        let read = black_box(read(alloc, stream, size)?);
        reading = reading.min(start.elapsed(rt)?);
        let start = Instant::now(rt)?;
        let looked = black_box(look(alloc, stream, size)?);
        looking = looking.min(start.elapsed(rt)?);
        let start = Instant::now(rt)?;
        copy(stream, size, &mut buffer)?;
        copying = copying.min(start.elapsed(rt)?);
        if read != wanted || looked != wanted {
            bail!("the reader took {read:?}, the window gave {looked:?}");
        }
    }
    let reading = rate(stream, reading);
    let looking = rate(stream, looking);
    let copying = rate(stream, copying);
    println!(rt;
        "    pieces of {size}: LumberWindow {looking:.0} MB/s, LumberReader {reading:.0} MB/s, a bare copy {copying:.0} MB/s, ratio {:.3}",
        looking / copying
    )?;
    Ok(())
}

fn main(rt: HostRuntime) -> anyhow::Result<()> {
    let stream = stream(rt.alloc())?;
    println!(rt;
        "{WINDOWS} windows of {FRAMES} JSON frames of {PAYLOAD} bytes, {} bytes, the best of some runs each",
        stream.len()
    )?;
    for (size, rounds) in PIECES {
        if size > 0 {
            measure(&rt, &stream, size, rounds)?;
        }
    }
    Ok(())
}
