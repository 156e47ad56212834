//! What a peer sends.
use crate::forwarding::fields::{add, number, word};
use std::alloc::Global;
use std::process::Abort;

// A reply of the collector, of which this is the status, a space and the body.
fn add_reply(rt: &impl Abort, alloc: Global, out: &mut Vec<u8>, text: &str) {
    let (status, body) = word(text);
    let size = body.len();
    let head = format!(in alloc;
        "HTTP/1.1 {status} OK\r\nContent-Type: application/json\r\nContent-Length: {size}\r\n\r\n"
    ).expect(rt, "memory");
    add(rt, out, &[head.as_bytes(), body.as_bytes()]);
}

/// What a row's peer sends: `bytes TEXT`, that text; `line TEXT`, with an LF after it, and `head TEXT`, with an empty line after it
/// as after HTTP's heads; `ack N`, an acknowledgment of Lumberjack; and `reply STATUS BODY`, a reply of the collector.
pub(crate) fn peer(rt: &impl Abort, alloc: Global, row: &str) -> Vec<u8> {
    let mut out = Vec::new(alloc);
    for line in row.lines() {
        let (first, said) = word(line);
        let text = said.as_bytes();
        match first {
            "bytes" => add(rt, &mut out, &[text]),
            "line" => add(rt, &mut out, &[text, b"\n"]),
            "head" => add(rt, &mut out, &[text, b"\r\n\r\n"]),
            "ack" => add(rt, &mut out, &[b"2A", &number(said).to_be_bytes()]),
            "reply" => add_reply(rt, alloc, &mut out, said),
            _ => {}
        }
    }
    out
}
