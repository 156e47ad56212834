//! Connections over a disk of which one call fails.
use crate::fields::{bytes_of, check_form, numbers_of};
use crate::harness::{Left, check_bytes, serve};
use edge_io::Proto;
use event_form::{Attended, Talk};
use std::alloc::Global;
use std::process::Abort;

// The words of a row: `row NAME`, `in`, and how many entries are `taken` where no take is answered, the first one is, and both are;
// what is written then, in `none`, `first` and `both`; and the entries of both takes, in `entries`.
const WORDS: &str = "row in group taken none first both entries";

const RELP: &str = r#"row RELP
in 1 open 0\n
in 2 syslog 5 first\n
in 3 syslog 6 second\n
taken 0 1 2
none 1 rsp 66 200 OK\nrelp_version=0\nrelp_software=bridge,1,local\ncommands=syslog\n
first 1 rsp 66 200 OK\nrelp_version=0\nrelp_software=bridge,1,local\ncommands=syslog\n
first 2 rsp 6 200 OK\n
both 1 rsp 66 200 OK\nrelp_version=0\nrelp_software=bridge,1,local\ncommands=syslog\n
both 2 rsp 6 200 OK\n
both 3 rsp 6 200 OK\n
entries 7 0 2 rfirst\n
entries 7 1 3 rsecond\n"#;

const RUNS: &str = r#"row RELP, where both are one group
in 1 open 0\n
in 2 syslog 5 first\n
in 3 syslog 6 second\n
group 1
taken 0 2 2
none 1 rsp 66 200 OK\nrelp_version=0\nrelp_software=bridge,1,local\ncommands=syslog\n
both 1 rsp 66 200 OK\nrelp_version=0\nrelp_software=bridge,1,local\ncommands=syslog\n
both 2 rsp 6 200 OK\n
both 3 rsp 6 200 OK\n
entries 7 0 2 rfirst\n
entries 7 1 3 rsecond\n"#;

const LUMBERJACK: &str = r#"row Lumberjack
in 2W\0\0\0\x02
in 2J\0\0\0\x01\0\0\0\x05xxxxx
in 2J\0\0\0\x02\0\0\0\x06xxxxxx
in 2W\0\0\0\x02
in 2J\0\0\0\x01\0\0\0\x07xxxxxxx
taken 0 2 3
first 2A\0\0\0\x02
both 2A\0\0\0\x02
both 2A\0\0\0\x01
entries 7 0 1 jxxxxx\n
entries 7 1 2 jxxxxxx\n
entries 7 2 1 jxxxxxxx\n"#;

const COLLECTOR: &str = r#"row the collector
in POST /services/collector/event HTTP/1.1\r\n
in Authorization: Splunk 11111111-2222-3333-4444-555555555555\r\nContent-Length: 11\r\n\r\n
in {"event":1}
in POST /services/collector/event HTTP/1.1\r\n
in Authorization: Splunk 11111111-2222-3333-4444-555555555555\r\nContent-Length: 11\r\n\r\n
in {"event":1}
taken 0 1 2
none HTTP/1.1 500 Internal Server Error\r\n
none Content-Type: application/json\r\nContent-Length: 41\r\nConnection: close\r\n\r\n
none {"text":"Internal server error","code":8}
first HTTP/1.1 200 OK\r\nContent-Type: application/json\r\nContent-Length: 27\r\n\r\n
first {"text":"Success","code":0}
first HTTP/1.1 500 Internal Server Error\r\n
first Content-Type: application/json\r\nContent-Length: 41\r\nConnection: close\r\n\r\n
first {"text":"Internal server error","code":8}
both HTTP/1.1 200 OK\r\nContent-Type: application/json\r\nContent-Length: 27\r\n\r\n
both {"text":"Success","code":0}
both HTTP/1.1 200 OK\r\nContent-Type: application/json\r\nContent-Length: 27\r\n\r\n
both {"text":"Success","code":0}
entries 7 0 0 o{"event":1}\n
entries 7 1 0 o{"event":1}\n"#;

// How many takes were answered where so many entries are taken, the field that says what is written then, and how many entries the
// spool may have beside those.
fn takes_of(rt: &impl Abort, counts: &[u64], taken: u64) -> (usize, &'static str, u64) {
    let [none, first, both] = counts else {
        panic!(rt; "three counts are wanted");
    };
    if taken == *none {
        return (0, "none", *first);
    }
    if taken == *both {
        return (2, "both", *both);
    }
    assert!(rt; taken == *first, "another count: {taken}");
    (1, "first", *both)
}

// What a row left over a disk of which that call failed is right. Answers how many of the two takes were answered where that ended the
// connection. None: the call that fails comes after the connection.
fn takes_before(
    rt: &impl Abort,
    alloc: Global,
    row: &str,
    left: &Left,
    call: u64,
) -> Option<usize> {
    let Attended { talk, taken } = left.attended;
    let (takes, field, next) = takes_of(rt, &numbers_of(rt, alloc, row, "taken"), taken);
    check_bytes(rt, alloc, row, field, &left.written);
    if talk != Talk::DiskFault {
        assert!(rt; talk == Talk::Ended && takes == 2, "call {call}");
        return None;
    }
    assert!(rt;
        left.count == taken || left.count == next,
        "call {call}: another count"
    );
    let entries = bytes_of(rt, alloc, row, "entries");
    assert!(rt;
        entries.starts_with(&left.entries),
        "call {call}: other entries"
    );
    Some(takes)
}

/// Whichever call of the disk fails, nothing is answered that isn't there, and nothing is written after
/// the answers. Each of the two takes makes four calls; where the events are stored as one group, the one take makes four.
pub(crate) fn a_failed_call_of_the_disk_ends_the_connection(rt: &impl Abort, alloc: Global) {
    for (proto, row, calls) in [
        (Proto::Relp, RELP, [4, 4, 0]),
        (Proto::Relp, RUNS, [4, 0, 0]),
        (Proto::Lumberjack, LUMBERJACK, [4, 4, 0]),
        (Proto::Hec, COLLECTOR, [4, 4, 0]),
    ] {
        check_form(rt, row, WORDS, 1);
        let mut faults = [0_u32; 3];
        for call in 0..40 {
            let left = serve(rt, alloc, proto, row, &[call], 1, 1000);
            let Some(left) = left else {
                continue;
            };
            if let Some(takes) = takes_before(rt, alloc, row, &left, call) {
                assert!(rt; takes < 3);
                faults[takes] = faults[takes].saturating_add(1);
            }
        }
        assert!(rt; faults == calls, "{proto:?}: {faults:?}");
    }
}
