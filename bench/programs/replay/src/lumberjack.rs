//! A connection of Lumberjack, and its window alone.
ghost use Rattle.std.specs.Prelude.{◌+◌, ◌≤◌, ◌^◌, length};

use crate::stream::Stream;
use anyhow::bail;
use edge_io::Proto;
use lumber_frame::{LumberRef, LumberWindow, window_frame, write_json};
use std::alloc::{AllocError, Global};

/// How many frames a window has, but the last one.
const WINDOW: u32 = 2048;

/// How many frames are stored as one group at most.
const BATCH: u32 = 256;

/// A payload of 100 bytes.
const PAYLOAD: &[u8] =
    br#"{"message":"connection from 192.0.2.17 closed","level":"info","pid":4711,"bytes":48213,"host":"h17"}"#;

/// As many JSON frames as there are to be events, in windows, numbered in each from 1. The last window has
/// fewer where they end. Memory is sought once, for all of it.
pub fn stream(alloc: Global, events: u32) -> Result<Stream, AllocError> {
    let mut bytes = Vec::with_capacity(alloc, 128 * (events as usize + 1))?;
    let mut left = events;
    for _ in 0..events {
        let size = left.min(WINDOW);
        if size == 0 {
            break;
        }
        bytes.extend_from_slice(&window_frame(size))?;
        for seq in 1..=size {
            write_json(seq, PAYLOAD, &mut bytes)?;
        }
        left -= size;
    }
    let batches = events / WINDOW * (WINDOW / BATCH) + (events % WINDOW + BATCH - 1) / BATCH;
    Ok(Stream {
        proto: Proto::Lumberjack,
        bytes,
        events,
        data: PAYLOAD.len(),
        frames: u64::from(events),
        answers: u64::from(batches),
        groups: u64::from(batches),
        group: BATCH,
    })
}

/// How many bytes a connection is fed at a time.
const PIECE: usize = 8192;

/// A window, how many bytes it may still be fed, and how many JSON frames it lent.
#[derive(Drop)]
struct Looking {
    window: LumberWindow,
    left: usize,
    frames: u64,
    ghost room: { window.at + length window.rest + left ≤ 2 ^ 40 },
}

impl Looking {
    fn new(alloc: Global) -> Result<Looking, AllocError> {
        Ok(Looking {
            window: LumberWindow::new(alloc)?,
            left: 1 << 40,
            frames: 0,
        })
    }

    fn feed(&mut self, piece: &[u8]) -> anyhow::Result<()> {
        if piece.len() > self.left {
            bail!("too many bytes");
        }
        self.left -= piece.len();
        match self.window.feed(piece) {
            Ok(taken) => {
                if taken < piece.len() {
                    bail!("{taken} bytes taken");
                }
            }
            Err(_) => bail!("feed: the piece was refused"),
        }
        for _ in 0..PIECE {
            match self.window.next() {
                Some(LumberRef::Json { .. }) => self.frames = self.frames.wrapping_add(1),
                Some(_) => {}
                None => break,
            }
        }
        Ok(())
    }
}

/// Reads the stream, and gives how many JSON frames it has.
pub fn read(alloc: Global, bytes: &[u8]) -> anyhow::Result<u64> {
    let mut looking = Looking::new(alloc)?;
    for piece in bytes.chunks(PIECE) {
        looking.feed(piece)?;
    }
    Ok(looking.frames)
}
