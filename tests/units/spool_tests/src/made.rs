//! Entries that differ in all that an entry has.
ghost use Rattle.event_form.specs.Entry.{IsEntry};

use crate::words::{copied, number, word};
use event_form::{Blob, Entry, Event, MOST_TEXT, Origin};
use std::alloc::Global;
use std::process::Abort;

// What an entry has, but for the length of its text. Each byte of that is one more than the byte
// before; 0 comes after 255.
#[derive(Clone, Copy)]
struct Kind {
    pub conn: u64,
    pub index: u64,
    pub unit: u64,
    pub origin: Origin,
    pub first_byte: u8,
}

const RELP: Kind = Kind {
    conn: 4_294_967_296,
    index: 0,
    unit: 2,
    origin: Origin::Relp,
    first_byte: 97,
};

const JSON: Kind = Kind {
    conn: 4_294_967_297,
    index: 7,
    unit: 3,
    origin: Origin::LumberJson,
    first_byte: 48,
};

const HEC: Kind = Kind {
    conn: 18_446_744_073_709_551_615,
    index: 4_294_967_299,
    unit: 4_294_967_296,
    origin: Origin::HecEvent,
    first_byte: 0,
};

const RAW: Kind = Kind {
    conn: 1,
    index: 2,
    unit: 9_223_372_036_854_775_808,
    origin: Origin::HecRaw,
    first_byte: 200,
};

fn fill(text: &mut [u8], first_byte: u8) {
    let mut next = first_byte;
    for byte in text.iter_mut() {
        *byte = next;
        next = next.wrapping_add(1);
    }
}

/// A RELP event, or one of the collector's, with this text.
pub(crate) fn entry_with(
    rt: &impl Abort,
    conn: u64,
    index: u64,
    unit: u64,
    origin: Origin,
    text: Vec<u8>,
) -> Entry
    ensures { IsEntry result }
{
    if origin == Origin::LumberData || text.len() > MOST_TEXT {
        panic!(rt; "no such entry");
    }
    let text = Blob::of(text);
    Entry {
        conn,
        index,
        unit,
        event: Event { origin, text },
    }
}

// A text of so many bytes.
fn text_of(rt: &impl Abort, alloc: Global, byte: u8, len: u64) -> Vec<u8> {
    vec![in alloc; byte; len.min(1_000_000) as usize].expect(rt, "memory")
}

// The entry of this kind with a text of so many bytes.
fn entry_of(rt: &impl Abort, alloc: Global, kind: Kind, len: u64) -> Entry
    ensures { IsEntry result }
{
    let mut text = text_of(rt, alloc, 0, len);
    fill(&mut text, kind.first_byte);
    entry_with(rt, kind.conn, kind.index, kind.unit, kind.origin, text)
}

/// A RELP event whose text is so many letters x.
pub(crate) fn event_of(rt: &impl Abort, alloc: Global, conn: u64, unit: u64, len: u64) -> Entry
    ensures { IsEntry result }
{
    let text = text_of(rt, alloc, b'x', len);
    entry_with(rt, conn, 0, unit, Origin::Relp, text)
}

// The kind that a script names so.
fn kind_of(rt: &impl Abort, name: &str) -> Kind {
    match name {
        "relp" => RELP,
        "json" => JSON,
        "hec" => HEC,
        "raw" => RAW,
        _ => panic!(rt; "no such kind"),
    }
}

/// The entry that a script names: a kind and a length; or a connection, a unit and a text, which stands there or
/// is so many letters x.
pub(crate) fn entry_named(rt: &impl Abort, alloc: Global, spelled: &str) -> Entry
    ensures { IsEntry result }
{
    let (name, rest) = word(spelled);
    let Ok(conn) = name.parse::<u64>() else {
        return entry_of(rt, alloc, kind_of(rt, name), number(rt, rest));
    };
    let (unit, text) = word(rest);
    let unit = number(rt, unit);
    match text.parse::<u64>() {
        Ok(len) => event_of(rt, alloc, conn, unit, len),
        Err(_) => {
            let text = copied(rt, alloc, text.as_bytes());
            entry_with(rt, conn, 0, unit, Origin::Relp, text)
        }
    }
}

// Whether the text is as `fill` makes it.
fn is_filled(text: &[u8], first_byte: u8) -> bool {
    let mut next = first_byte;
    for byte in text {
        if *byte != next {
            return false;
        }
        next = next.wrapping_add(1);
    }
    true
}

// Whether the entry, which has the origin of the kind, is one of it in all that it has.
fn is_of(entry: &Entry, kind: Kind) -> bool {
    entry.conn == kind.conn
        && entry.index == kind.index
        && entry.unit == kind.unit
        && is_filled(entry.event.text.bytes(), kind.first_byte)
}

/// The name of the entry's kind, each of which has an origin of its own, or `another` where it is none of these.
pub(crate) fn name_of(entry: &Entry) -> &'static str {
    let (name, kind) = match entry.event.origin {
        Origin::Relp => ("relp", RELP),
        Origin::LumberJson => ("json", JSON),
        Origin::HecEvent => ("hec", HEC),
        Origin::HecRaw => ("raw", RAW),
        Origin::LumberData => return "another",
    };
    if is_of(entry, kind) { name } else { "another" }
}
