//! What is written to a peer.
use crate::forwarding::fields::{add, number, word};
use std::alloc::Global;
use std::process::Abort;

// The frame that opens a session of RELP, 70 bytes.
const OPEN: &[u8] = b"1 open 59 relp_version=0\nrelp_software=bridge,1,local\ncommands=syslog\n";

// The head of a request to the collector after its path, with the token and the channel 0, up to the length of its body.
const HEAD: &str = " HTTP/1.1\r\nHost: collector\r\n\
    Authorization: Splunk 00000000-0000-0000-0000-000000000000\r\n\
    X-Splunk-Request-Channel: 00000000-0000-0000-0000-000000000000\r\n\
    Content-Type: application/json\r\nContent-Length: ";

// So many frames of RELP, from this number on.
fn add_frames(
    rt: &impl Abort,
    alloc: Global,
    out: &mut Vec<u8>,
    from: u32,
    count: u32,
    text: &[u8],
) {
    for index in 0..count {
        let number = from
            .wrapping_add(index)
            .to_string(alloc)
            .expect(rt, "memory");
        add(rt, out, &[number.as_bytes(), text]);
    }
}

// A window of Lumberjack of so many entries.
fn add_window(rt: &impl Abort, out: &mut Vec<u8>, count: u32) {
    add(rt, out, &[b"2W", &count.to_be_bytes()]);
    for index in 0..count {
        add(rt, out, &[b"2J", &index.wrapping_add(1).to_be_bytes()]);
        add(rt, out, &[b"\0\0\0\x13{\"message\":\"hello\"}"]);
    }
}

// A request to the collector with this path, and so often this text as its body.
fn add_request(
    rt: &impl Abort,
    alloc: Global,
    out: &mut Vec<u8>,
    path: &str,
    text: &str,
    count: u32,
) {
    let size = text.len().saturating_mul(count as usize);
    let head = format!(in alloc; "POST /services/collector/{path}{HEAD}{size}\r\n\r\n");
    add(rt, out, &[head.expect(rt, "memory").as_bytes()]);
    for _ in 0..count {
        add(rt, out, &[text.as_bytes()]);
    }
}

/// What is written in a row's session: `open`, the frame that opens a session of RELP, `entries N`, those of so many entries from the
/// number 2 on, and `close N`, the one with that number that closes it; `window N`, a window of Lumberjack of so many entries;
/// `events N`, a request to the collector of so many, and `query`, one that asks for the id 7.
pub(crate) fn written(rt: &impl Abort, alloc: Global, row: &str) -> Vec<u8> {
    let mut out = Vec::new(alloc);
    for line in row.lines() {
        let (first, text) = word(line);
        let count = number(text);
        match first {
            "open" => add(rt, &mut out, &[OPEN]),
            "entries" => add_frames(rt, alloc, &mut out, 2, count, b" syslog 5 hello\n"),
            "close" => add_frames(rt, alloc, &mut out, count, 1, b" close 0\n"),
            "window" => add_window(rt, &mut out, count),
            "events" => add_request(rt, alloc, &mut out, "event", "{\"event\":\"hello\"}", count),
            "query" => add_request(rt, alloc, &mut out, "ack", "{\"acks\":[7]}", 1),
            _ => {}
        }
    }
    out
}
