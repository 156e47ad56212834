//! Entries as they are written and read.
use event_form::{
    Blob, Entry, EntryFault, Event, Origin, entry_head, entry_length, entry_size, first_pair,
    read_entry, write_entry,
};
use std::alloc::Global;
use std::process::Abort;

const HELLO: [u8; 34] = [
    0x01, 0x00, 0x00, 0x00, 0x01, 0x00, 0x00, 0x00, 0x00, 0x00, 0x00, 0x00, 0x00, 0x00, 0x00, 0x00,
    0x00, 0x00, 0x00, 0x00, 0x00, 0x00, 0x00, 0x00, 0x02, 0x00, 0x00, 0x00, 0x05, 0x68, 0x65, 0x6c,
    0x6c, 0x6f,
];

// The entry as it is written after a byte and before another.
fn written(rt: &impl Abort, alloc: Global) -> Vec<u8> {
    let entry = Entry {
        conn: 4_294_967_296,
        index: 0,
        unit: 2,
        event: Event {
            origin: Origin::Relp,
            text: Blob::of(Vec::from_slice(alloc, b"hello").expect(rt, "memory")),
        },
    };
    assert!(rt; entry_size(&entry) == 34);
    assert!(rt; entry_head(&entry).as_slice() == &HELLO[..29]);
    let mut out = Vec::from_slice(alloc, &[9]).expect(rt, "memory");
    write_entry(&entry, &mut out).expect(rt, "memory");
    out.push(7).expect(rt, "memory");
    out
}

// Whether this is the entry.
fn is_hello(entry: &Entry) -> bool {
    entry.conn == 4_294_967_296
        && entry.index == 0
        && entry.unit == 2
        && entry.event.origin == Origin::Relp
        && entry.event.text.bytes() == b"hello".as_slice()
}

// The entry is read at the front of these bytes, and copied.
fn is_read(rt: &impl Abort, alloc: Global, bytes: &[u8]) {
    let took = read_entry(alloc, bytes).ok().expect(rt, "an entry");
    assert!(rt; took.used == 34 && is_hello(&took.entry));
    assert!(rt; is_hello(&took.entry.copy(alloc).expect(rt, "memory")));
}

/// An entry is written, read and copied.
pub fn an_entry_is_written_and_read(rt: &impl Abort, alloc: Global) {
    let out = written(rt, alloc);
    assert!(rt; out.len() == 36 && out[0] == 9 && out[35] == 7);
    assert!(rt; &out[1..35] == HELLO.as_slice());
    assert!(rt; entry_length(&HELLO[..29]) == Some(34));
    is_read(rt, alloc, &out[1..]);
}

/// A pair is read, and what follows it.
pub fn a_pair_is_read(rt: &impl Abort) {
    let (key, value, rest) = first_pair(b"\0\0\0\x01k\0\0\0\x02xyz").expect(rt, "a pair");
    assert!(rt; key == b"k".as_slice() && value == b"xy".as_slice() && rest == b"z".as_slice());
}

// Where the first so many of an entry's bytes are at fault, its text zeros and all its numbers 0.
fn place(rt: &impl Abort, alloc: Global, first: u8, length: u32, present: usize) -> Option<usize> {
    let mut bytes = vec![in alloc; 0; 29 + 131_073].expect(rt, "memory");
    bytes[0] = first;
    bytes[25..29].copy_from_slice(&length.to_be_bytes());
    match read_entry(alloc, bytes.get(..present).expect(rt, "so many bytes")) {
        Ok(_) => None,
        Err(EntryFault::BadEntry { at }) => Some(at),
        Err(EntryFault::NoMemory) => panic!(rt; "memory"),
    }
}

/// Entries: the first byte, the length of the text, how many bytes are present, and the place of the fault.
const PLACES: [(u8, u32, usize, Option<usize>); 19] = [
    // The bytes end too early.
    (1, 5, 0, Some(0)),
    (1, 5, 1, Some(1)),
    (1, 5, 28, Some(28)),
    (1, 5, 29, Some(29)),
    (1, 5, 33, Some(33)),
    (1, 5, 34, None),
    // No origin.
    (0, 5, 34, Some(0)),
    (6, 5, 1, Some(0)),
    (5, 5, 34, None),
    // A long text.
    (1, 131_073, 28, Some(28)),
    (1, 131_073, 29, Some(25)),
    (1, 131_073, 131_102, Some(25)),
    (1, 131_072, 131_100, Some(131_100)),
    (1, 131_072, 131_101, None),
    // Pairs of eight zeros: none, one and a cut one, 1,024 and 1,025.
    (2, 0, 29, None),
    (2, 13, 41, Some(41)),
    (2, 13, 42, Some(29)),
    (2, 8_192, 8_221, None),
    (2, 8_200, 8_229, Some(29)),
];

// The rows. A test's proof sees none of them this way, so that it stays short.
fn places() -> &'static [(u8, u32, usize, Option<usize>)] {
    &PLACES
}

/// Each fault has its place.
pub fn each_fault_has_its_place(rt: &impl Abort, alloc: Global) {
    for (first, length, present, at) in places() {
        assert!(rt;
            place(rt, alloc, *first, *length, *present) == *at,
            "{present} of {length}"
        );
    }
}
