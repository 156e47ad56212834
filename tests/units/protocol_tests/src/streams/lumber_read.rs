//! Lumberjack read in pieces, by its window and by its reader.
ghost use Rattle.std.specs.Prelude.{◌≡◌, ◌≤◌, ◌<◌, ◌+◌, ◌^◌, length};

use event_form::FeedFault;
use lumber_frame::{
    LumberFault, LumberReader, LumberRef, LumberWhy, LumberWindow, Side, write_frame,
};
use std::alloc::Global;
use std::process::Abort;

/// The place of a fault, and the rule.
pub type Found = (u64, LumberWhy);

/// What was read of a stream: the frames, written again; the offset of the unfinished frame, or of the one that has the
/// fault; and the fault.
pub type Read = (Vec<u8>, Option<u64>, Option<Found>);

/// A window that may still be fed so many bytes.
#[derive(Drop)]
pub struct Fed {
    pub window: LumberWindow,
    left: usize,
    pub ghost room: { window.at + length window.rest + left ≤ 2 ^ 40 },
}

impl Fed {
    pub fn new(rt: &impl Abort, alloc: Global) -> Fed {
        Fed {
            window: LumberWindow::new(alloc).expect(rt, "memory"),
            left: 1 << 40,
        }
    }

    pub fn feed(&mut self, piece: &[u8]) -> Result<usize, LumberFault> {
        if piece.len() > self.left {
            return Ok(0);
        }
        self.left -= piece.len();
        self.window.feed(piece)
    }

    /// The sequence number of the next frame, or its window size, and the length of its text.
    pub fn next(&mut self) -> Option<(u32, usize)> {
        match self.window.next()? {
            LumberRef::Window { size } => Some((size, 0)),
            LumberRef::Pairs { seq, text } | LumberRef::Json { seq, text } => {
                Some((seq, text.len()))
            }
        }
    }

    /// Writes the frames that wait again.
    fn drain(&mut self, rt: &impl Abort, alloc: Global, out: &mut Vec<u8>) {
        for _ in 0..u32::MAX {
            let Some(lent) = self.window.next() else {
                break;
            };
            let frame = lent.to_frame(alloc).expect(rt, "memory");
            write_frame(&frame, out).expect(rt, "memory");
        }
    }

    /// Feeds the piece until it is taken, and writes the frames again.
    fn read(
        &mut self,
        rt: &impl Abort,
        alloc: Global,
        piece: &[u8],
        out: &mut Vec<u8>,
    ) -> Option<Found> {
        let mut rest = piece;
        for _ in 0..u32::MAX {
            let fed = self.feed(rest);
            self.drain(rt, alloc, out);
            match fed {
                Ok(taken) if taken < rest.len() => rest = &rest[taken..],
                Ok(_) => break,
                Err(fault) => return Some((fault.at, fault.why)),
            }
        }
        None
    }
}

/// Feeds a window the text in pieces of a size, each until it is taken. Says too how many bytes it holds at the end.
pub fn by_window(rt: &impl Abort, alloc: Global, text: &[u8], size: usize) -> (Read, usize)
    requires { 0 < size }
{
    let mut fed = Fed::new(rt, alloc);
    let mut out = Vec::new(alloc);
    let mut found = None;
    for piece in text.chunks(size) {
        let before = found;
        found = fed.read(rt, alloc, piece, &mut out);
        assert!(rt; before.is_none() || found == before);
    }
    ((out, fed.window.rest_at(), found), fed.window.held())
}

/// Feeds a reader the text in pieces of a size.
pub fn by_reader(rt: &impl Abort, alloc: Global, side: Side, text: &[u8], size: usize) -> Read
    requires pieces { (0 < size) × (size ≤ 2 ^ 20) }
    requires short { length text.now ≤ 2 ^ 20 }
{
    let mut reader = LumberReader::new(alloc, side);
    let mut out = Vec::new(alloc);
    let mut fault = None;
    let mut fed = 0;
    while fed < text.len() {
        let next = (fed + size).min(text.len());
        match reader.feed(&text[fed..next]) {
            Ok(()) => {}
            Err(FeedFault::Fault(found)) => fault = Some((found.at, found.why)),
            Err(FeedFault::NoMemory) => panic!(rt; "memory"),
        }
        while let Some(frame) = reader.take() {
            write_frame(&frame, &mut out).expect(rt, "memory");
        }
        fed = next;
    }
    (out, reader.rest_at(), fault)
}
