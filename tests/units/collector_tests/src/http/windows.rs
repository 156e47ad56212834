//! What a window holds, one that is full, one that has a fault, and a request that it gives.
use crate::http::requests::Talk;
use crate::spelling::add;
use http_edge::{HttpItem, HttpRequest};
use std::alloc::Global;
use std::process::Abort;

// A window with a fault takes nothing of a request.
fn takes_none(rt: &impl Abort, talk: &mut Talk) {
    assert!(rt; talk.feed(rt, b"GET / HTTP/1.1\r\n\r\n") == 0);
}

// Two counts.
fn counts(rt: &impl Abort, alloc: Global, first: usize, second: usize) -> Vec<u8> {
    let text = format!(in alloc; "{first} {second}").expect(rt, "memory");
    text.into_bytes()
}

/// How many bytes of a text are held, and how many once all items are given.
pub fn held(rt: &impl Abort, alloc: Global, text: &[u8]) -> Vec<u8> {
    let mut talk = Talk::new(rt, alloc);
    talk.feed(rt, text);
    let before = talk.window.held();
    talk.drain(rt, alloc, &mut Vec::new(alloc));
    counts(rt, alloc, before, talk.window.held())
}

/// How many bytes of a text a window doesn't take, and how many of these it takes once an item is given.
pub fn filled(rt: &impl Abort, alloc: Global, text: &[u8]) -> Vec<u8> {
    let mut talk = Talk::new(rt, alloc);
    let mut rest = text;
    for _ in 0..u32::MAX {
        let taken = talk.feed(rt, rest);
        if taken == 0 {
            break;
        }
        rest = rest.get(taken..).unwrap_or(&[]);
    }
    talk.take(rt, alloc);
    counts(rt, alloc, rest.len(), talk.feed(rt, rest))
}

/// What a text with a fault tells where nothing is taken after it: neither before the items are given nor after that, and the
/// fault is reported again.
pub fn told_again(rt: &impl Abort, alloc: Global, text: &[u8]) -> Vec<u8> {
    let mut talk = Talk::new(rt, alloc);
    let mut told = Vec::new(alloc);
    talk.feed(rt, text);
    takes_none(rt, &mut talk);
    talk.drain(rt, alloc, &mut told);
    talk.fault = None;
    takes_none(rt, &mut talk);
    talk.tell_end(rt, alloc, &mut told);
    told
}

/// The request that a text is.
pub fn request(rt: &impl Abort, alloc: Global, text: &[u8]) -> HttpRequest {
    let mut talk = Talk::new(rt, alloc);
    talk.feed(rt, text);
    match talk.take(rt, alloc) {
        Some(HttpItem::Request(request)) => request,
        _ => panic!(rt; "no request"),
    }
}

/// What the request tells that a text is: its minor version and how many fields it has, and after a bar each its method, its
/// target, whether its connection ends, the values of the first `host` and the first `hos`, and its body.
pub fn first(rt: &impl Abort, alloc: Global, text: &[u8]) -> Vec<u8> {
    let request = request(rt, alloc, text);
    let mut told = counts(
        rt,
        alloc,
        usize::from(request.minor),
        request.fields.as_slice().len(),
    );
    for part in [
        request.method.bytes(),
        request.target.bytes(),
        if request.closes() {
            b"closes"
        } else {
            b"stays"
        },
        request.field(b"hOST").unwrap_or(b"-"),
        request.field(b"Hos").unwrap_or(b"-"),
        request.body.bytes(),
    ] {
        add(rt, &mut told, b"|");
        add(rt, &mut told, part);
    }
    told
}
