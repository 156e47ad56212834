//! A stream of requests, read in pieces by a window.
ghost use Rattle.std.specs.Prelude.{◌+◌, ◌≤◌, ◌^◌};
ghost use Rattle.http_edge.specs.Reading.{come};

use crate::http::told::tell_end;
use crate::spelling::add;
use event_form::FeedFault;
use http_edge::{HttpFault, HttpItem, HttpWindow};
use std::alloc::Global;
use std::process::Abort;

/// A window that may still be fed so many bytes, and the fault that it reported.
#[derive(Drop)]
pub struct Talk {
    pub window: HttpWindow,
    left: usize,
    pub fault: Option<HttpFault>,
    pub ghost room: { window.reading.at + come window.reading + left ≤ 2 ^ 40 },
}

// Tells an item: `continue`, or a request's target and body, each after a bar. Of a body above 1,000 bytes it tells how many.
fn tell_item(rt: &impl Abort, alloc: Global, item: &HttpItem, told: &mut Vec<u8>) {
    match item {
        HttpItem::Continue => add(rt, told, b"|continue"),
        HttpItem::Request(request) => {
            add(rt, told, b"|");
            add(rt, told, request.target.bytes());
            add(rt, told, b"|");
            let body = request.body.bytes();
            if body.len() > 1_000 {
                let count = format!(in alloc; "({} bytes)", body.len()).expect(rt, "memory");
                add(rt, told, count.as_bytes());
            } else {
                add(rt, told, body);
            }
        }
    }
}

impl Talk {
    pub fn new(rt: &impl Abort, alloc: Global) -> Talk {
        Talk {
            window: HttpWindow::new(alloc).expect(rt, "memory"),
            left: 1 << 40,
            fault: None,
        }
    }

    /// How much of the piece the window takes; nothing at a fault.
    pub fn feed(&mut self, rt: &impl Abort, piece: &[u8]) -> usize {
        assert!(rt; piece.len() <= self.left);
        self.left -= piece.len();
        match self.window.feed(piece) {
            Ok(taken) => taken,
            Err(FeedFault::Fault(fault)) => {
                self.fault = Some(fault);
                0
            }
            Err(FeedFault::NoMemory) => panic!(rt; "memory"),
        }
    }

    /// The next item, as one of its own.
    pub fn take(&mut self, rt: &impl Abort, alloc: Global) -> Option<HttpItem> {
        match self.window.next() {
            Some(item) => Some(item.to_item(alloc).expect(rt, "memory")),
            None => None,
        }
    }

    /// Takes the items that wait, and tells them.
    pub fn drain(&mut self, rt: &impl Abort, alloc: Global, told: &mut Vec<u8>) {
        for _ in 0..u32::MAX {
            match self.take(rt, alloc) {
                Some(item) => tell_item(rt, alloc, &item, told),
                None => break,
            }
        }
    }

    // Reads the piece until it is taken or has a fault, and tells the items.
    fn read(&mut self, rt: &impl Abort, alloc: Global, piece: &[u8], told: &mut Vec<u8>) {
        let mut rest = piece;
        for _ in 0..u32::MAX {
            let taken = self.feed(rt, rest);
            self.drain(rt, alloc, told);
            rest = rest.get(taken..).unwrap_or(&[]);
            if rest.is_empty() || self.fault.is_some() {
                break;
            }
        }
    }

    /// Tells the rest and the fault.
    pub fn tell_end(&self, rt: &impl Abort, alloc: Global, told: &mut Vec<u8>) {
        tell_end(rt, alloc, self.window.rest_at(), self.fault, told);
    }
}

/// What a text tells that is fed in pieces of a size: its items, the rest and the fault.
pub fn told(rt: &impl Abort, alloc: Global, text: &[u8], size: usize) -> Vec<u8> {
    assert!(rt; size > 0);
    let mut talk = Talk::new(rt, alloc);
    let mut told = Vec::new(alloc);
    for piece in text.chunks(size) {
        talk.read(rt, alloc, piece, &mut told);
    }
    talk.tell_end(rt, alloc, &mut told);
    told
}
