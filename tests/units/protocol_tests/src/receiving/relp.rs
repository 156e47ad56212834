//! The table of states row by row, and whole sessions.
ghost use Rattle.std.specs.Prelude.{◌≤◌, ◌^◌, length};

use super::relp_rows::{ROWS, Row};
use crate::parts::add;
use event_form::{Blob, FeedFault, Origin};
use relp_frame::RelpReader;
use relp_session::{RelpAct, RelpCore, closing_hint, stored_reply};
use std::alloc::{AllocError, Global};
use std::process::Abort;

const OFFERED: &[u8] =
    b"say 1 rsp 66 200 OK\nrelp_version=0\nrelp_software=bridge,1,local\ncommands=syslog\n";

/// Shows an act: `store TXNR TEXT` and LF, `say` or `end` and the text, or `nothing` and LF.
fn show(rt: &impl Abort, alloc: Global, act: &RelpAct, out: &mut Vec<u8>) {
    match act {
        RelpAct::Store { event, txnr } => {
            assert!(rt; matches!(event.origin, Origin::Relp));
            let number = txnr.to_string(alloc).expect(rt, "memory");
            add(rt, out, &[b"store ", number.as_bytes(), b" "]);
            add(rt, out, &[event.text.bytes(), b"\n"]);
        }
        RelpAct::Say(text) => add(rt, out, &[b"say ", text.bytes()]),
        RelpAct::End(text) => {
            if text.bytes().is_empty() {
                add(rt, out, &[b"nothing\n"]);
            } else {
                add(rt, out, &[b"end ", text.bytes()]);
            }
        }
    }
}

/// Asserts that this is done for the frames that the text spells, up to its end or its first fault.
fn answers(rt: &impl Abort, alloc: Global, core: &mut RelpCore, text: &[u8], done: &[u8])
    requires { length text.now ≤ 2 ^ 20 }
{
    let mut reader = RelpReader::new(alloc);
    let mut out = Vec::new(alloc);
    if let Err(FeedFault::NoMemory) = reader.feed(text) {
        panic!(rt; "memory");
    }
    while let Some(frame) = reader.take() {
        let act = core.step(alloc, frame).expect(rt, "memory");
        show(rt, alloc, &act, &mut out);
    }
    assert!(rt; out.as_slice() == done, "{text:?}");
}

/// What is done for some frames of a row, and then for another frame.
fn session(rt: &impl Abort, alloc: Global, row: &Row, frames: &[u8]) {
    let mut core = RelpCore::new();
    if row.opened {
        answers(rt, alloc, &mut core, b"1 open 0\n", OFFERED);
    }
    assert!(rt; frames.len() <= 300);
    answers(rt, alloc, &mut core, frames, row.done);
    answers(rt, alloc, &mut core, b"9 noop 0\n", row.then);
}

pub(crate) fn sessions(rt: &impl Abort, alloc: Global) {
    for row in ROWS {
        for frames in row.frames {
            session(rt, alloc, row, frames);
        }
    }
}

/// Asserts that this is the text.
fn is(rt: &impl Abort, text: Result<Blob, AllocError>, wanted: &[u8]) {
    assert!(rt; text.expect(rt, "memory").bytes() == wanted);
}

pub(crate) fn texts_of_the_receiver(rt: &impl Abort, alloc: Global) {
    is(rt, stored_reply(alloc, 2), b"2 rsp 6 200 OK\n");
    is(
        rt,
        stored_reply(alloc, 999_999_999),
        b"999999999 rsp 6 200 OK\n",
    );
    is(rt, closing_hint(alloc), b"0 serverclose 0\n");
}
