//! How much one read brings where the events that one brings are stored as one group.
use crate::harness::{Left, check_bytes, serve};
use edge_io::Proto;
use event_form::{Attended, Talk};
use std::alloc::Global;
use std::process::Abort;

// More calls of the disk than a row makes with its opening, and more texts than it writes.
const MOST_CALLS: u64 = 40;

const MOST_TEXTS: u64 = 8;

// So many `syslog` frames whose data have that many bytes, which three reads bring: of 1,024 bytes, of 8,192, and a long one. How many calls of the disk store
// them, and how many texts answer them and the `open`.
struct Burst {
    events: u64,
    size: usize,
    calls: u64,
    texts: u64,
}

// 57,903 bytes, of which the reads bring 8, 72 and 420 events, each one group; and 63,953, of which they bring 9, 79 and 522, of these the
// first 512 one group, and the other 10 the next one.
const BURSTS: &[Burst] = &[
    Burst {
        events: 500,
        size: 100,
        calls: 12,
        texts: 4,
    },
    Burst {
        events: 610,
        size: 90,
        calls: 16,
        texts: 5,
    },
];

// The row of a burst, and this line more.
fn row_of(rt: &impl Abort, alloc: Global, burst: &Burst, more: &str) -> String {
    let Burst { events, size, .. } = *burst;
    let head = r#"row events of one read
group 1
slot 200000
in 1 open 0\n
out 1 rsp 66 200 OK\nrelp_version=0\nrelp_software=bridge,1,local\ncommands=syslog\n
"#;
    let mut row = String::new(alloc);
    row.push_str(head).expect(rt, "memory");
    for index in 0..events {
        let txnr = index.saturating_add(2);
        let lines = format!(in alloc;
            "in {txnr} syslog {size} \\{{{size}}}\\n\nout {txnr} rsp 6 200 OK\\n\nentries 7 {index} {txnr} r\\{{{size}}}\\n\n"
        );
        row.push_str(&lines.expect(rt, "memory"))
            .expect(rt, "memory");
    }
    row.push_str(more).expect(rt, "memory");
    row
}

// Serves a burst that comes in one read. This call of the disk fails. None: the device wasn't opened.
fn serve_burst(rt: &impl Abort, alloc: Global, row: &str, failing: &[u64]) -> Option<Left> {
    serve(rt, alloc, Proto::Relp, row, failing, 1, 100_000)
}

// How many calls of the disk the connection makes: those after the opening's that end it where they fail, one after another.
fn calls_of(rt: &impl Abort, alloc: Global, row: &str) -> u64 {
    let mut calls = 0_u64;
    for call in 0..MOST_CALLS {
        let Some(left) = serve_burst(rt, alloc, row, &[call]) else {
            continue;
        };
        if left.attended.talk == Talk::DiskFault {
            calls = calls.saturating_add(1);
        } else if calls > 0 {
            return calls;
        }
    }
    panic!(rt; "more calls than a row makes")
}

// How many texts it writes: those that end it where they fail, one after another.
fn texts_of(rt: &impl Abort, alloc: Global, burst: &Burst) -> u64 {
    for text in 0..MOST_TEXTS {
        let more = format!(in alloc; "writes {text}").expect(rt, "memory");
        let row = row_of(rt, alloc, burst, &more);
        let left = serve_burst(rt, alloc, &row, &[]).expect(rt, "not opened");
        if left.attended.talk != Talk::WriteFault {
            return text;
        }
    }
    panic!(rt; "more texts than a row writes")
}

/// A read asks for 1,024 bytes at first, for 8,192 after one that was full, and then for 65,536. All events that one brings are stored and
/// answered before the next one, the fourth of which fails here; up to 512 of them by four calls of the disk, and in one text.
pub(crate) fn one_read_brings_long_runs(rt: &impl Abort, alloc: Global) {
    for burst in BURSTS {
        let row = row_of(rt, alloc, burst, "reads 3");
        let left = serve_burst(rt, alloc, &row, &[]).expect(rt, "not opened");
        let Attended { talk, taken } = left.attended;
        assert!(rt;
            talk == Talk::ReadFault && taken == burst.events,
            "{taken} taken"
        );
        assert!(rt; left.asked == (1_024, 65_536), "reads of other lengths");
        check_bytes(rt, alloc, &row, "out", &left.written);
        check_bytes(rt, alloc, &row, "entries", &left.entries);
        let calls = calls_of(rt, alloc, &row);
        let texts = texts_of(rt, alloc, burst);
        assert!(rt;
            calls == burst.calls && texts == burst.texts,
            "{calls} calls, {texts} texts"
        );
    }
}
