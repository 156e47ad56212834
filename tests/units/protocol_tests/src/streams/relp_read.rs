//! RELP read in pieces, by its window and by its reader.
ghost use Rattle.std.specs.Prelude.{◌≡◌, ◌≤◌, ◌<◌, ◌^◌, length};

use event_form::FeedFault;
use relp_frame::{RelpFault, RelpReader, RelpWindow, write_frame};
use std::alloc::Global;
use std::process::Abort;

/// What was read of a stream: the frames, written again; the offset of the unfinished frame, or of the one that has the
/// fault; and the fault.
pub type Read = (Vec<u8>, Option<u64>, Option<RelpFault>);

/// Takes the frames that wait, and writes them again.
fn drain(rt: &impl Abort, alloc: Global, window: &mut RelpWindow, out: &mut Vec<u8>)
    ensures at { window.new.at ≡ window.old.at }
    ensures rest { window.new.rest ≡ window.old.rest }
{
    while let Some(lent) = window.next() {
        let frame = lent.to_frame(alloc).expect(rt, "memory");
        write_frame(&frame, out).expect(rt, "memory");
    }
}

/// Feeds a window the text in pieces of a size, and takes what is whole after each. Says too how
/// many bytes it holds at the end.
pub fn by_window(rt: &impl Abort, alloc: Global, text: &[u8], size: usize) -> (Read, usize)
    requires pieces { (0 < size) × (size ≤ 2 ^ 20) }
    requires short { length text.now ≤ 2 ^ 20 }
{
    let mut window = RelpWindow::new(alloc).expect(rt, "memory");
    let mut frames = Vec::new(alloc);
    let mut fault = None;
    let mut fed = 0;
    while fed < text.len() {
        let next = (fed + size).min(text.len());
        if let Err(found) = window.feed(&text[fed..next]) {
            fault = Some(found);
        }
        drain(rt, alloc, &mut window, &mut frames);
        fed = next;
    }
    ((frames, window.rest_at(), fault), window.held())
}

/// Feeds a reader the text in pieces of a size, and takes what is whole after each.
pub fn by_reader(rt: &impl Abort, alloc: Global, text: &[u8], size: usize) -> Read
    requires pieces { (0 < size) × (size ≤ 2 ^ 20) }
    requires short { length text.now ≤ 2 ^ 20 }
{
    let mut reader = RelpReader::new(alloc);
    let mut frames = Vec::new(alloc);
    let mut fault = None;
    let mut fed = 0;
    while fed < text.len() {
        let next = (fed + size).min(text.len());
        match reader.feed(&text[fed..next]) {
            Ok(()) => {}
            Err(FeedFault::Fault(found)) => fault = Some(found),
            Err(FeedFault::NoMemory) => panic!(rt; "memory"),
        }
        while let Some(frame) = reader.take() {
            write_frame(&frame, &mut frames).expect(rt, "memory");
        }
        fed = next;
    }
    (frames, reader.rest_at(), fault)
}
