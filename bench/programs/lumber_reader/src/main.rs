//! How fast lumber_frame's reader takes windows of short JSON frames that come in pieces, beside a bare
//! copy of the same pieces.
#![tactic(auto)]

ghost use Rattle.std.specs.Prelude.{◌+◌, ◌≤◌, length};

use anyhow::bail;
use lumber_frame::{LumberFrame, LumberReader, Side, window_frame, write_json};
use std::alloc::{AllocError, Global};
use std::hint::black_box;
use std::num::nearest_usize_to_f64;
use std::time::{Duration, Instant};

/// How many frames a window has.
const FRAMES: u32 = 2048;

/// How many windows the stream has.
const WINDOWS: u32 = 4;

/// How many bytes a payload has.
const PAYLOAD: usize = 100;

/// How many bytes come at a time.
const PIECE: usize = 8192;

/// How often the stream is read: short runs say more where other work goes on beside.
const ROUNDS: u32 = 400;

/// A reader, and how many bytes it was fed.
#[derive(Drop)]
struct Fed {
    reader: LumberReader,
    bytes: u64,
    ghost within: { reader.at + length reader.rest ≤ bytes },
}

impl Fed {
    fn new(alloc: Global) -> Fed {
        Fed {
            reader: LumberReader::new(alloc, Side::Receiver),
            bytes: 0,
        }
    }

    /// Feeds a piece, and says whether it was taken: the stream is short, and has no fault.
    fn feed(&mut self, piece: &[u8]) -> bool {
        let more = piece.len() as u64;
        if self.bytes > 1 << 32 || more > 1 << 32 {
            return false;
        }
        self.bytes += more;
        self.reader.feed(piece).is_ok()
    }

    /// The next frame.
    fn take(&mut self) -> Option<LumberFrame> {
        self.reader.take()
    }
}

/// A payload.
fn payload(alloc: Global) -> Result<Vec<u8>, AllocError> {
    let mut bytes = Vec::from_slice(
        alloc,
        br#"{"message":"connection from 192.0.2.17 accepted","level":"info","pid":4711,"text":""#,
    )?;
    bytes.resize(PAYLOAD - 2, b'x')?;
    bytes.extend_from_slice(br#""}"#)?;
    Ok(bytes)
}

/// The stream: windows of JSON frames, numbered from 1.
fn stream(alloc: Global) -> Result<Vec<u8>, AllocError> {
    let payload = payload(alloc)?;
    let mut bytes = Vec::new(alloc);
    for _ in 0..WINDOWS {
        bytes.extend_from_slice(&window_frame(FRAMES))?;
        for seq in 1..=FRAMES {
            if payload.len() < 1 << 20 {
                write_json(seq, &payload, &mut bytes)?;
            }
        }
    }
    Ok(bytes)
}

/// The payload of a JSON frame.
fn payload_of(frame: &LumberFrame) -> Option<&[u8]> {
    match frame {
        LumberFrame::Json { text, .. } => Some(text.bytes()),
        _ => None,
    }
}

/// Reads the stream, and counts its data frames, and the bytes of their payloads.
fn read(alloc: Global, stream: &[u8]) -> anyhow::Result<(u64, u64)> {
    let mut fed = Fed::new(alloc);
    let mut frames = 0u64;
    let mut payloads = 0u64;
    for piece in stream.chunks(PIECE) {
        if !fed.feed(piece) {
            bail!("the reader takes no more");
        }
        for _ in 0..u32::MAX {
            match fed.take() {
                Some(frame) => {
                    if let Some(bytes) = payload_of(&frame) {
                        frames = frames.wrapping_add(1);
                        payloads = payloads.wrapping_add(bytes.len() as u64);
                    }
                }
                None => break,
            }
        }
    }
    Ok((frames, payloads))
}

/// Copies the stream, piece by piece, into a buffer that holds one.
fn copy(stream: &[u8], buffer: &mut Vec<u8>) -> Result<(), AllocError> {
    for piece in stream.chunks(PIECE) {
        buffer.clear();
        buffer.extend_from_slice(piece)?;
        black_box(buffer.as_slice());
    }
    Ok(())
}

/// Millions of bytes a second.
fn rate(bytes: &[u8], taken: Duration) -> f64 {
    nearest_usize_to_f64(bytes.len()) / taken.as_secs_f64() / 1e6
}

fn main(rt: HostRuntime) -> anyhow::Result<()> {
    let alloc = rt.alloc();
    let stream = stream(alloc)?;
    let mut buffer = Vec::with_capacity(alloc, PIECE)?;
    let mut reading = Duration::MAX;
    let mut copying = Duration::MAX;
    let wanted = u64::from(WINDOWS) * u64::from(FRAMES);
    for _ in 0..ROUNDS {
        let start = Instant::now(&rt)?;
        let (frames, payloads) = black_box(read(alloc, &stream)?);
        reading = reading.min(start.elapsed(&rt)?);
        if frames != wanted || payloads != wanted * PAYLOAD as u64 {
            bail!("{frames} frames of {payloads} bytes were read");
        }
        let start = Instant::now(&rt)?;
        copy(&stream, &mut buffer)?;
        copying = copying.min(start.elapsed(&rt)?);
    }
    let ours = rate(&stream, reading);
    let bare = rate(&stream, copying);
    println!(rt;
        "{WINDOWS} windows of {FRAMES} JSON frames of {PAYLOAD} bytes, {} bytes in pieces of {PIECE}, the best of {ROUNDS} runs each",
        stream.len()
    )?;
    println!(rt; "    LumberReader: {ours:.0} MB/s")?;
    println!(rt; "    a bare copy: {bare:.0} MB/s, ratio {:.3}", ours / bare)?;
    Ok(())
}
