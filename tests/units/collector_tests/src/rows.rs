//! Tables of texts and what is told of them, and how they are checked.
use crate::hec::{bodies, sessions};
use crate::http::{past, replies, requests, windows};
use crate::spelling::spell;
use hec_session::HecCore;
use hec_tokens::{ListedToken, TokenList};
use std::alloc::Global;
use std::process::Abort;

/// What the texts of a table are.
pub enum Form {
    /// Streams of requests or of replies, read in pieces.
    Requests,
    Replies,
    /// Streams of which a window holds something, that fill one, and that have a fault.
    Held,
    Filled,
    AtFault,
    /// One request.
    First,
    /// Bodies of events, of lines, and of ack queries.
    Events,
    Lines,
    Query,
    /// Requests to a receiver with these tokens: one without acks, one with acks, and a list.
    Session(Option<u128>, Option<u128>, &'static [ListedToken]),
}

// What a text tells, read in pieces of a size where it is a stream.
fn told(rt: &impl Abort, alloc: Global, form: &Form, text: &[u8], size: usize) -> Vec<u8> {
    match form {
        Form::Requests => {
            past::agrees(rt, alloc, text, size);
            requests::told(rt, alloc, text, size)
        }
        Form::Replies => replies::told(rt, alloc, text, size),
        Form::Held => windows::held(rt, alloc, text),
        Form::Filled => windows::filled(rt, alloc, text),
        Form::AtFault => windows::told_again(rt, alloc, text),
        Form::First => windows::first(rt, alloc, text),
        Form::Events => bodies::events(rt, alloc, text),
        Form::Lines => bodies::lines(rt, alloc, text),
        Form::Query => bodies::ids(rt, alloc, text),
        Form::Session(token, ack_token, listed) => {
            let listed = TokenList::of(listed.to_vec(alloc).expect(rt, "memory"));
            let core = HecCore::new(*token, *ack_token, listed);
            sessions::done(rt, alloc, &core, text)
        }
    }
}

// Whether this is told, or one of several texts with ` or ` between them.
fn is_one_of(rt: &impl Abort, alloc: Global, told: &[u8], wants: &str) -> bool {
    for want in wants.split(" or ") {
        let mut bytes = Vec::new(alloc);
        spell(rt, alloc, want.trim(), &mut bytes);
        if bytes.as_slice() == told {
            return true;
        }
    }
    false
}

// Whether a text tells this in pieces of each size.
fn tells(
    rt: &impl Abort,
    alloc: Global,
    form: &Form,
    sizes: &[usize],
    text: &[u8],
    wants: &str,
) -> bool {
    for size in sizes {
        let told = told(rt, alloc, form, text, *size);
        if !is_one_of(rt, alloc, &told, wants) {
            return false;
        }
    }
    true
}

/// Checks a table, in pieces of each size where its texts are streams. A row is a text, `=>`, and what that tells, both as
/// [`spell`] has them. A row's text may stand on several lines, each but the last with ` +` at its end. Lines that begin with `//` say what follows.
pub fn check(rt: &impl Abort, alloc: Global, form: &Form, sizes: &[usize], table: &str) {
    let mut text = Vec::new(alloc);
    for line in table.lines() {
        if line.is_empty() || line.starts_with("//") {
            continue;
        }
        match line.split_once("=>") {
            Some((end, wants)) => {
                spell(rt, alloc, end.trim(), &mut text);
                assert!(rt; tells(rt, alloc, form, sizes, &text, wants), "{line}");
                text.clear();
            }
            None => {
                let part = line.strip_suffix(" +").expect(rt, "a row tells nothing");
                spell(rt, alloc, part, &mut text);
            }
        }
    }
    assert!(rt; text.is_empty(), "a row tells nothing");
}
