//! A stream of replies, read in pieces by a reader.
ghost use Rattle.std.specs.Prelude.{◌+◌, ◌≤◌, ◌^◌};
ghost use Rattle.http_reply.specs.Reading.{come};

use crate::http::told::tell_end;
use crate::spelling::add;
use event_form::FeedFault;
use http_edge::HttpFault;
use http_reply::{HttpReply, ReplyReader};
use std::alloc::Global;
use std::process::Abort;

/// A reader that may still be fed so many bytes, and the fault that it reported.
#[derive(Drop)]
struct Hearing {
    reader: ReplyReader,
    left: usize,
    fault: Option<HttpFault>,
    ghost room: { reader.at + come reader + left ≤ 2 ^ 40 },
}

// Tells a reply: its offset, status and body.
fn tell_reply(rt: &impl Abort, alloc: Global, reply: &HttpReply, told: &mut Vec<u8>) {
    let head = format!(in alloc; "@{} {}|", reply.at, reply.status).expect(rt, "memory");
    add(rt, told, head.as_bytes());
    add(rt, told, reply.body.bytes());
}

impl Hearing {
    fn feed(&mut self, rt: &impl Abort, piece: &[u8]) {
        assert!(rt; piece.len() <= self.left);
        self.left -= piece.len();
        match self.reader.feed(piece) {
            Ok(()) => {}
            Err(FeedFault::Fault(fault)) => self.fault = Some(fault),
            Err(FeedFault::NoMemory) => panic!(rt; "memory"),
        }
    }

    // Takes the replies that wait, and tells them.
    fn drain(&mut self, rt: &impl Abort, alloc: Global, told: &mut Vec<u8>) {
        for _ in 0..u32::MAX {
            match self.reader.take() {
                Some(reply) => tell_reply(rt, alloc, &reply, told),
                None => break,
            }
        }
    }
}

/// What a text tells that is fed in pieces of a size: its replies, the rest and the fault.
pub fn told(rt: &impl Abort, alloc: Global, text: &[u8], size: usize) -> Vec<u8> {
    assert!(rt; size > 0);
    let mut hearing = Hearing {
        reader: ReplyReader::new(alloc),
        left: 1 << 40,
        fault: None,
    };
    let mut told = Vec::new(alloc);
    for piece in text.chunks(size) {
        hearing.feed(rt, piece);
        hearing.drain(rt, alloc, &mut told);
    }
    tell_end(
        rt,
        alloc,
        hearing.reader.rest_at(),
        hearing.fault,
        &mut told,
    );
    told
}
