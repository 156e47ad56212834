//! A connection of RELP, and its window alone.
ghost use Rattle.std.specs.Prelude.{◌+◌, ◌≤◌, ◌^◌, length};

use crate::stream::Stream;
use anyhow::bail;
use edge_io::Proto;
use relp_frame::{RelpWindow, write_parts};
use std::alloc::{AllocError, Global};
use std::hint::black_box;

const OPEN: &[u8] = b"1 open 54 relp_version=0\nrelp_software=bench,1,x\ncommands=syslog\n";

const DATA: &[u8] =
    b"<13>Nov 27 02:00:00 host7 app[4711]: connection from 192.0.2.17:40312 closed, 48213 bytes in 0.187 s";

/// An `open` and as many `syslog` frames as there are to be events. Memory is sought once, for all of it.
pub fn stream(alloc: Global, events: u32) -> Result<Stream, AllocError> {
    let mut bytes = Vec::with_capacity(alloc, 128 * (events as usize + 1))?;
    bytes.extend_from_slice(OPEN)?;
    for number in 0..events {
        write_parts(2 + number % 999_999_998, b"syslog", DATA, &mut bytes)?;
    }
    Ok(Stream {
        proto: Proto::Relp,
        bytes,
        events,
        data: DATA.len(),
        frames: u64::from(events) + 1,
        answers: u64::from(events) + 1,
        groups: u64::from(events),
        group: 1,
    })
}

/// How many bytes a connection is fed at a time.
const PIECE: usize = 8192;

/// A window, how many bytes it may still be fed, and how many frames it lent.
#[derive(Drop)]
struct Looking {
    window: RelpWindow,
    left: usize,
    frames: u64,
    ghost room: { window.at + length window.rest + left ≤ 2 ^ 40 },
}

impl Looking {
    fn new(alloc: Global) -> Result<Looking, AllocError> {
        Ok(Looking {
            window: RelpWindow::new(alloc)?,
            left: 1 << 40,
            frames: 0,
        })
    }

    fn feed(&mut self, piece: &[u8]) -> anyhow::Result<()> {
        if piece.len() > self.left {
            bail!("too many bytes");
        }
        self.left -= piece.len();
        match self.window.feed(piece) {
            Ok(taken) => {
                if taken < piece.len() {
                    bail!("{taken} bytes taken");
                }
            }
            Err(_) => bail!("feed: the piece was refused"),
        }
        for _ in 0..PIECE {
            let Some(frame) = self.window.next() else {
                break;
            };
            self.frames = self.frames.wrapping_add(1);
            black_box(frame.txnr);
        }
        Ok(())
    }
}

/// Reads the stream, and gives how many frames it has.
pub fn read(alloc: Global, bytes: &[u8]) -> anyhow::Result<u64> {
    let mut looking = Looking::new(alloc)?;
    for piece in bytes.chunks(PIECE) {
        looking.feed(piece)?;
    }
    Ok(looking.frames)
}
