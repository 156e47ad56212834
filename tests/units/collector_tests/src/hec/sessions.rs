//! Requests and what is done for them.
use crate::http::windows;
use crate::spelling::add;
use event_form::{Event, Origin};
use hec_session::{HecAct, HecCore};
use std::alloc::Global;
use std::process::Abort;

const CHANNEL: u128 = 0xcccc_cccc_2222_3333_4444_5555_5555_5555;

// The field that a letter stands for: `P` and `A` the Authorization with each of the tokens, `C` the channel, `Z` one that is no
// GUID, `T` a second Authorization, and `G` and `I` codings.
fn lettered(rt: &impl Abort, letter: u8) -> &'static [u8] {
    match letter {
        b'P' => b"Authorization: Splunk 11111111-2222-3333-4444-555555555555\r\n",
        b'A' => b"Authorization: Splunk aaaaaaaa-2222-3333-4444-555555555555\r\n",
        b'C' => b"X-Splunk-Request-Channel: cccccccc-2222-3333-4444-555555555555\r\n",
        b'Z' => b"x-splunk-request-channel: zz\r\n",
        b'T' => b"authorization: Splunk 11111111-2222-3333-4444-555555555555\r\n",
        b'G' => b"Content-Encoding: gzip\r\n",
        b'I' => b"content-encoding: Identity\r\n",
        _ => panic!(rt; "no field has this letter"),
    }
}

// Adds a request: its first line, an Authorization if there is one, and the fields of these letters.
fn add_head(rt: &impl Abort, line: &str, authorization: &str, letters: &str, head: &mut Vec<u8>) {
    add(rt, head, line.as_bytes());
    add(rt, head, b" HTTP/1.1\r\n");
    if !authorization.is_empty() {
        add(rt, head, b"Authorization: ");
        add(rt, head, authorization.as_bytes());
        add(rt, head, b"\r\n");
    }
    for letter in letters.as_bytes() {
        add(rt, head, lettered(rt, *letter));
    }
}

// The request of a row, which has a bar after each part but the last: a name, a method and a target, letters, an Authorization
// that has no letter, and the body.
fn request_of(rt: &impl Abort, alloc: Global, row: &str) -> Vec<u8> {
    let (_, request) = row.split_once('|').expect(rt, "a name");
    let mut parts = request.split('|');
    let line = parts.next().expect(rt, "a method and a target");
    let letters = parts.next().expect(rt, "letters");
    let authorization = parts.next().expect(rt, "an Authorization");
    let body = parts.next().expect(rt, "a body");
    assert!(rt; parts.next().is_none(), "a bar too many");
    let mut text = Vec::new(alloc);
    add_head(rt, line, authorization, letters, &mut text);
    if !body.is_empty() {
        let length = format!(in alloc; "Content-Length: {}\r\n", body.len()).expect(rt, "memory");
        add(rt, &mut text, length.as_bytes());
    }
    add(rt, &mut text, b"\r\n");
    add(rt, &mut text, body.as_bytes());
    text
}

// Shows a word and events: their texts in brackets, `o` before an object and `r` before a line.
fn show_events(rt: &impl Abort, word: &[u8], events: &[Event], shown: &mut Vec<u8>) {
    add(rt, shown, word);
    for event in events {
        let bracket = match event.origin {
            Origin::HecEvent => b" o[",
            Origin::HecRaw => b" r[",
            _ => b" ?[",
        };
        add(rt, shown, bracket);
        add(rt, shown, event.text.bytes());
        add(rt, shown, b"]");
    }
}

// Shows a number after a word.
fn show_number(rt: &impl Abort, alloc: Global, word: &str, number: u64, shown: &mut Vec<u8>) {
    let text = format!(in alloc; "{word}{number}").expect(rt, "memory");
    add(rt, shown, text.as_bytes());
}

// Shows what is done: events, the ids that are asked for, or status, code and the number of the event.
fn show(rt: &impl Abort, alloc: Global, act: &HecAct, shown: &mut Vec<u8>) {
    match act {
        HecAct::StoreThenSay { events } => show_events(rt, b"store", events, shown),
        HecAct::SayThenStore { channel, events } => {
            assert!(rt; *channel == CHANNEL);
            show_events(rt, b"say", events, shown);
        }
        HecAct::Ask { channel, ids } => {
            assert!(rt; *channel == CHANNEL);
            add(rt, shown, b"ask");
            for id in ids {
                show_number(rt, alloc, " ", *id, shown);
            }
        }
        HecAct::Say(say) => {
            show_number(rt, alloc, "", u64::from(say.status), shown);
            show_number(rt, alloc, " ", u64::from(say.code), shown);
            if let Some(event) = say.event {
                show_number(rt, alloc, " ", u64::from(event), shown);
            }
        }
    }
}

/// What is done for the request of a row.
pub fn done(rt: &impl Abort, alloc: Global, core: &HecCore, row: &[u8]) -> Vec<u8> {
    let text = request_of(rt, alloc, str::from_utf8(row).expect(rt, "a text"));
    let request = windows::request(rt, alloc, &text);
    let act = core.step(alloc, &request).expect(rt, "memory");
    let mut shown = Vec::new(alloc);
    show(rt, alloc, &act, &mut shown);
    shown
}
