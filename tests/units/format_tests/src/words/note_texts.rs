//! Why a run ended, and the lines that are printed.
use bridge_words::{drain_line, entry_line, move_line, serve_line, spool_line};
use event_form::{Blob, Entry, Event, Origin, Why};
use notes::{Note, note_text};
use std::alloc::{AllocError, Global};
use std::process::Abort;

// Notes, their statuses and their texts.
const NOTES: [(Note, u8, &str); 28] = [
    (Note::Fine, 0, ""),
    (
        Note::Usage,
        64,
        "usage: bridge FILE format|replay|list|drain|serve|load|move",
    ),
    (Note::NotSpool { at: 4096 }, 65, "not a spool at 4096"),
    (
        Note::WrongLength {
            have: 100,
            want: 20_480,
        },
        65,
        "device has 100 bytes, 20480 wanted",
    ),
    (
        Note::Full {
            need: 2038,
            room: 2037,
        },
        67,
        "spool full: 2038 needed, 2037 free",
    ),
    (
        Note::TooLarge {
            need: 4079,
            most: 4078,
        },
        67,
        "group too large: 4079 needed, 4078 at most",
    ),
    (Note::NoMemory, 70, "no memory"),
    (Note::ReadFault, 71, "read fault"),
    (Note::WriteFault, 72, "write fault"),
    (Note::DiskFault, 73, "disk fault"),
    (
        Note::Refused { unit: 2, code: 500 },
        68,
        "peer refused 2 with 500",
    ),
    (Note::PeerClosed, 68, "peer closed"),
    (Note::Unconfirmed { asked: 7 }, 69, "unconfirmed 7"),
    (Note::NetFault, 74, "net fault"),
    (
        Note::RunsSpent { run: 2_097_151 },
        76,
        "run 2097151 was the last",
    ),
    (
        Note::Spent {
            end: 9_223_372_036_854_775_808,
        },
        77,
        "history spent at 9223372036854775808",
    ),
    (
        Note::Worn {
            ordinal: 9_223_372_036_854_775_808,
        },
        77,
        "register spent at 9223372036854775808",
    ),
    (
        Note::Fault {
            at: 75,
            why: Why::TooLong,
        },
        66,
        "fault at 75: too long",
    ),
    (
        Note::Fault {
            at: 0,
            why: Why::AckFromWriter,
        },
        66,
        "fault at 0: ack from writer",
    ),
    (
        Note::Fault {
            at: 19,
            why: Why::Compressed,
        },
        66,
        "fault at 19: compressed",
    ),
    (
        Note::Fault {
            at: 0,
            why: Why::Version,
        },
        66,
        "fault at 0: version",
    ),
    (
        Note::Fault {
            at: 1,
            why: Why::Kind,
        },
        66,
        "fault at 1: type",
    ),
    (
        Note::Fault {
            at: 2,
            why: Why::TooMany,
        },
        66,
        "fault at 2: too many",
    ),
    (Note::Busy { held: 10_000 }, 67, "id table full: 10000 held"),
    (
        Note::Truncated { at: 61 },
        75,
        "input ended in a frame at 61",
    ),
    (Note::NoMore { run: 1 }, 77, "ids of run 1 spent"),
    (
        Note::TooMuch {
            at: 1_099_511_627_776,
        },
        77,
        "connection spent at 1099511627776",
    ),
    (Note::Strange { number: 12 }, 79, "entry 12 is another"),
];

// The rows. A test's proof sees none of them this way, so that it stays short.
fn notes() -> &'static [(Note, u8, &'static str)] {
    &NOTES
}

/// Each note has its status and its text.
pub fn texts(rt: &impl Abort, alloc: Global) {
    for (note, status, text) in notes() {
        assert!(rt; note.status() == *status, "{text}");
        let told = note_text(alloc, note).expect(rt, "memory");
        assert!(rt; told.bytes() == text.as_bytes(), "{text}");
    }
}

fn is(rt: &impl Abort, line: Result<String, AllocError>, want: &str) -> bool {
    line.expect(rt, "memory").as_str() == want
}

// Lines that count.
fn counts(rt: &impl Abort, alloc: Global) {
    const MOST: u64 = 18_446_744_073_709_551_615;
    assert!(rt; is(rt, spool_line(alloc, 2, 4096), "2 slots of 4096 bytes\n"));
    assert!(rt;
        is(
            rt,
            drain_line(alloc, 10_000, 0),
            "10000 confirmed, 0 left\n"
        )
    );
    assert!(rt;
        is(
            rt,
            drain_line(alloc, 0, MOST),
            "0 confirmed, 18446744073709551615 left\n"
        )
    );
    assert!(rt; is(rt, move_line(alloc, 100_000, 0), "100000 moved, 0 left\n"));
    assert!(rt;
        is(
            rt,
            move_line(alloc, 0, MOST),
            "0 moved, 18446744073709551615 left\n"
        )
    );
    assert!(rt;
        is(
            rt,
            serve_line(alloc, 3, 7, 7, 0),
            "3 talks, 7 taken, 7 confirmed, 0 left\n"
        )
    );
    let most = "0 talks, 18446744073709551615 taken, 10 confirmed, 2 left\n";
    assert!(rt; is(rt, serve_line(alloc, 0, MOST, 10, 2), most));
}

// The line of an entry of each origin.
const LINES: [(Origin, &str); 5] = [
    (Origin::Relp, "7 4294967296 1 2 relp 5\n"),
    (Origin::LumberData, "7 4294967296 1 2 pairs 5\n"),
    (Origin::LumberJson, "7 4294967296 1 2 json 5\n"),
    (Origin::HecEvent, "7 4294967296 1 2 event 5\n"),
    (Origin::HecRaw, "7 4294967296 1 2 raw 5\n"),
];

/// Each line is as it is printed.
pub fn lines(rt: &impl Abort, alloc: Global) {
    counts(rt, alloc);
    for (origin, line) in LINES {
        let entry = Entry {
            conn: 4_294_967_296,
            index: 1,
            unit: 2,
            event: Event {
                origin,
                text: Blob::of(Vec::from_slice(alloc, b"hello").expect(rt, "memory")),
            },
        };
        assert!(rt; is(rt, entry_line(alloc, 7, &entry), line), "{line}");
    }
}
