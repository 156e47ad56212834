//! A stream of requests of which each leaves the window once its head is whole and its body isn't: what is read of it but for the bodies,
//! which are read past, is what the window alone reads.
use crate::http::requests::Talk;
use crate::spelling::add;
use http_edge::{ItemRef, PastBody, Way};
use std::alloc::Global;
use std::process::Abort;

/// The window, the body that is read past, and the target of its request.
#[derive(Drop)]
struct Passing {
    talk: Talk,
    past: Option<PastBody>,
    target: Vec<u8>,
    /// Whether requests leave the window.
    leaving: bool,
}

// Tells the items that wait: `continue`, or a request's target, each after a bar.
fn drain(rt: &impl Abort, talk: &mut Talk, told: &mut Vec<u8>) {
    for _ in 0..u32::MAX {
        match talk.window.next() {
            Some(ItemRef::Continue) => add(rt, told, b"|continue"),
            Some(ItemRef::Request { head, .. }) => {
                add(rt, told, b"|");
                add(rt, told, head.target.bytes());
            }
            None => break,
        }
    }
}

impl Passing {
    // Has the unfinished request leave, if its head is whole.
    fn leave(&mut self, rt: &impl Abort, alloc: Global) {
        let target = match self.talk.window.unfinished() {
            Some(head) => head.target.bytes().to_vec(alloc).expect(rt, "memory"),
            None => return,
        };
        assert!(rt; self.talk.fault.is_none());
        self.target = target;
        self.past = Some(self.talk.window.leave().expect(rt, "memory"));
        assert!(rt; self.talk.window.held() == 0 && self.talk.window.rest_at().is_none());
    }

    // Reads a piece past the body, and says how much of it.
    fn pass(&mut self, rt: &impl Abort, piece: &[u8], told: &mut Vec<u8>) -> usize {
        let Some(past) = &mut self.past else {
            return 0;
        };
        match past.feed(piece).expect(rt, "memory") {
            Way::Open => piece.len(),
            Way::Whole { used, end } => {
                assert!(rt; used > 0 && end > past.at());
                self.talk.window.go_on(end, None);
                self.past = None;
                add(rt, told, b"|");
                add(rt, told, &self.target);
                used
            }
            Way::Bad(fault) => {
                let at = past.at();
                self.talk.window.go_on(at, Some(fault));
                self.past = None;
                self.talk.fault = Some(fault);
                0
            }
        }
    }

    // Reads the piece until it is taken or has a fault.
    fn read(&mut self, rt: &impl Abort, alloc: Global, piece: &[u8], told: &mut Vec<u8>) {
        let mut rest = piece;
        for _ in 0..u32::MAX {
            let taken = if self.past.is_some() {
                self.pass(rt, rest, told)
            } else {
                let taken = self.talk.feed(rt, rest);
                drain(rt, &mut self.talk, told);
                taken
            };
            rest = rest.get(taken..).unwrap_or(&[]);
            if self.leaving && self.past.is_none() && self.talk.fault.is_none() {
                self.leave(rt, alloc);
            }
            if rest.is_empty() || self.talk.fault.is_some() {
                break;
            }
        }
    }
}

// What a text tells that is fed in pieces of a size: its items without their bodies, the rest and the fault.
fn told(rt: &impl Abort, alloc: Global, text: &[u8], size: usize, leaving: bool) -> Vec<u8> {
    let mut passing = Passing {
        talk: Talk::new(rt, alloc),
        past: None,
        target: Vec::new(alloc),
        leaving,
    };
    let mut told = Vec::new(alloc);
    for piece in text.chunks(size) {
        passing.read(rt, alloc, piece, &mut told);
    }
    match &passing.past {
        Some(past) => {
            let rest = format!(in alloc; "#{}", past.at()).expect(rt, "memory");
            add(rt, &mut told, rest.as_bytes());
        }
        None => passing.talk.tell_end(rt, alloc, &mut told),
    }
    told
}

/// Refuses a text of which something else is read in pieces of a size where its requests leave the window.
pub fn agrees(rt: &impl Abort, alloc: Global, text: &[u8], size: usize) {
    let kept = told(rt, alloc, text, size, false);
    let past = told(rt, alloc, text, size, true);
    assert!(rt;
        kept == past,
        "another reading past bodies in pieces of {size}"
    );
}
