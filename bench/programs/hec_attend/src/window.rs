//! The window of requests alone.
ghost use Rattle.std.specs.Prelude.{◌≡◌, ◌+◌, ◌≤◌, ◌^◌};
ghost use Rattle.http_edge.specs.Reading.{come};

use anyhow::bail;
use event_form::FeedFault;
use http_edge::{HttpWindow, ItemRef};
use std::alloc::{AllocError, Global};
use std::hint::black_box;

/// How many bytes a connection is fed at a time.
const PIECE: usize = 8192;

/// No piece completes more items than this.
const MOST_ITEMS: usize = 8192;

// How many bytes the next item's body has.
fn look(window: &mut HttpWindow) -> Option<usize>
    ensures at { window.new.reading.at ≡ window.old.reading.at }
    ensures comes { come window.new.reading ≡ come window.old.reading }
{
    match window.next() {
        Some(ItemRef::Request { head, body }) => {
            black_box(head.minor);
            Some(body.len())
        }
        Some(ItemRef::Continue) => Some(0),
        None => None,
    }
}

/// A window, how many bytes it may still be fed, and how many requests it gave.
#[derive(Drop)]
struct Looking {
    window: HttpWindow,
    left: usize,
    requests: u32,
    ghost room: { window.reading.at + come window.reading + left ≤ 2 ^ 40 },
}

impl Looking {
    fn new(alloc: Global) -> Result<Looking, AllocError> {
        Ok(Looking {
            window: HttpWindow::new(alloc)?,
            left: 1 << 40,
            requests: 0,
        })
    }

    fn feed(&mut self, piece: &[u8]) -> anyhow::Result<()> {
        if piece.len() > self.left {
            bail!("too many bytes");
        }
        self.left -= piece.len();
        match self.window.feed(piece) {
            Ok(taken) => {
                if taken < piece.len() {
                    bail!("{taken} bytes taken");
                }
            }
            Err(FeedFault::Fault(_)) => bail!("feed: a fault of the stream"),
            Err(FeedFault::NoMemory) => bail!("feed: no memory"),
        }
        Ok(())
    }

    // Looks at each item that waits.
    fn drain(&mut self) {
        for _ in 0..MOST_ITEMS {
            let Some(body) = look(&mut self.window) else {
                break;
            };
            black_box(body);
            self.requests = self.requests.wrapping_add(1);
        }
    }
}

/// Reads the bytes, and gives how many requests they have.
pub fn read(alloc: Global, bytes: &[u8]) -> anyhow::Result<u32> {
    let mut looking = Looking::new(alloc)?;
    for piece in bytes.chunks(PIECE) {
        looking.feed(piece)?;
        looking.drain();
    }
    Ok(looking.requests)
}
