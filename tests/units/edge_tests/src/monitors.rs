//! Those who ask for numbers over the loopback's sockets.
use crate::sockets::{bound, free_place, pair};
use edge_io::{Door, EventCounts, Monitor, Net, NetFault, Proto, Sink, SpoolNumbers};
use edge_net::{Reports, TcpMonitor, TcpNet, Waits};
use event_form::{Talk, Why};
use std::io::{self, Read, Write};
use std::net::{Shutdown, TcpStream};
use std::process::Abort;
use std::rt::Clock;
use std::thread::{self, Threads};
use std::time::{Duration, Instant};

const NUMBERS: SpoolNumbers = SpoolNumbers {
    run: 7,
    end: 1_002,
    cursor: 990,
    known_count: 3,
    room: 500,
    slots: 8,
    free_slots: 2,
    most: 10_000,
    stored: EventCounts {
        relp: 40,
        lumberjack: 500,
        hec: 6,
    },
};

// The same of a spool in which no slot is free.
const FULL: SpoolNumbers = SpoolNumbers {
    free_slots: 0,
    ..NUMBERS
};

// The same once one entry more was stored.
const STORED: SpoolNumbers = SpoolNumbers { end: 1_003, ..FULL };

// What is told of these numbers.
const TOLD: [&str; 16] = [
    "bridge_spool_end 1002",
    "bridge_spool_cursor 990",
    "bridge_spool_known_beyond_cursor 3",
    "bridge_spool_pending 9",
    "bridge_spool_room_bytes 20500",
    "bridge_spool_slots 8",
    "bridge_spool_free_slots 2",
    "bridge_spool_slot_bytes 10000",
    "bridge_spool_full 0",
    "bridge_spool_run 7",
    "bridge_spool_runs_left 2097144",
    "# HELP bridge_events_stored_total Events that this run has stored, by the protocol by which they came.",
    "# TYPE bridge_events_stored_total counter",
    "bridge_events_stored_total{protocol=\"relp\"} 40",
    "bridge_events_stored_total{protocol=\"lumberjack\"} 500",
    "bridge_events_stored_total{protocol=\"hec\"} 6",
];

const METRICS: &str = "GET /metrics HTTP/1.1\r\nHost: bridge\r\n\r\n";

const HEALTH: &str = "GET /health HTTP/1.1\r\n\r\n";

type HostMonitor<'a> = TcpMonitor<'a, HostRuntime>;

// A connection to the place, on which this was sent.
fn asker(rt: &impl Abort, host: &HostRuntime, place: &str, request: &str) -> TcpStream {
    let mut stream = TcpStream::connect(host, place).expect(rt, "it listens");
    let sent = stream.write_all(request.as_bytes());
    assert!(rt; sent.is_ok());
    stream
}

// What comes on the connection, of which nothing more is written.
fn heard(rt: &(impl Abort + AllocGlobal), stream: TcpStream) -> String {
    io::read_to_string(rt.alloc(), stream).expect(rt, "an answer and its end")
}

// Whether the monitor is asked, which is told these numbers then.
fn tell(monitor: &mut HostMonitor<'_>, numbers: &SpoolNumbers) -> bool {
    let is_asked = monitor.is_asked();
    if is_asked {
        monitor.tell(numbers);
    }
    is_asked
}

// What is answered to this, and whether numbers were asked for.
fn answer(
    rt: &(impl Abort + AllocGlobal),
    host: &HostRuntime,
    monitor: &mut HostMonitor<'_>,
    place: &str,
    request: &str,
    numbers: &SpoolNumbers,
) -> (bool, String) {
    let stream = asker(rt, host, place, request);
    assert!(rt; stream.shutdown(Shutdown::Write).is_ok());
    let is_asked = tell(monitor, numbers);
    (is_asked, heard(rt, stream))
}

// Whether one of the lines of the text is this one.
fn has_line(text: &str, line: &str) -> bool {
    text.lines().any(|one| one == line)
}

// That the answer has this status, and its head says how long its body is. Gives the body.
fn assert_answer<'t>(rt: &impl Abort, text: &'t str, status: &str) -> &'t str {
    let (head, body) = text.split_once("\r\n\r\n").expect(rt, "a head");
    let (first, fields) = head.split_once("\r\n").expect(rt, "a first line");
    assert!(rt; first.strip_prefix("HTTP/1.1 ") == Some(status), "{first}");
    assert!(rt; has_line(fields, "Connection: close"), "{fields}");
    body
}

// How long the head of an answer says that its body is.
fn length_in(rt: &impl Abort, text: &str) -> usize {
    let (_, rest) = text.split_once("Content-Length: ").expect(rt, "a length");
    let (length, _) = rest.split_once("\r\n").expect(rt, "the line's end");
    length.parse().expect(rt, "a number")
}

fn numbers_are_told_as_they_are(
    rt: &(impl Abort + AllocGlobal),
    host: &HostRuntime,
    monitor: &mut HostMonitor<'_>,
    place: &str,
) {
    let (is_asked, text) = answer(rt, host, monitor, place, METRICS, &NUMBERS);
    let body = assert_answer(rt, &text, "200 OK");
    assert!(rt; is_asked && length_in(rt, &text) == body.len());
    let kind = "Content-Type: text/plain; version=0.0.4; charset=utf-8";
    assert!(rt; has_line(&text, kind), "{text}");
    for line in TOLD {
        assert!(rt; has_line(body, line), "{line}");
    }
    let request = "HEAD /metrics?x=y HTTP/1.0\r\n\r\n";
    let (is_asked, head) = answer(rt, host, monitor, place, request, &NUMBERS);
    assert!(rt; is_asked && assert_answer(rt, &head, "200 OK").is_empty());
    assert!(rt; length_in(rt, &head) == body.len());
}

fn other_requests_are_refused(
    rt: &(impl Abort + AllocGlobal),
    host: &HostRuntime,
    monitor: &mut HostMonitor<'_>,
    place: &str,
) {
    for (request, status) in [
        ("GET / HTTP/1.1\r\n\r\n", "404 Not Found"),
        ("HEAD /metrics/ HTTP/1.1\r\n\r\n", "404 Not Found"),
        ("POST /metrics HTTP/1.1\r\n\r\n", "405 Method Not Allowed"),
        ("get /health HTTP/1.1\r\n\r\n", "405 Method Not Allowed"),
        ("GET /health\r\n\r\n", "400 Bad Request"),
        ("1 open 0 \n\r\n\r\n", "400 Bad Request"),
        ("GET /health HTTP/2\r\n\r\n", "400 Bad Request"),
    ] {
        let (_, text) = answer(rt, host, monitor, place, request, &NUMBERS);
        let body = assert_answer(rt, &text, status);
        assert!(rt; body.is_empty() == request.starts_with("HEAD"));
        let is_method = has_line(&text, "Allow: GET, HEAD");
        assert!(rt; is_method == status.starts_with("405"), "{text}");
    }
}

// Whether the peer has closed the connection, on which nothing came.
fn is_closed(rt: &impl Abort, stream: &mut TcpStream) -> bool {
    assert!(rt; stream.set_nonblocking(true).is_ok());
    matches!(stream.read(&mut [0u8; 8]), Ok(0))
}

// How long it takes until the peer has closed the connection, while the monitor looks for those who ask. Nobody asks for numbers
// but the monitor itself.
fn closed_after(
    rt: &(impl Abort + Clock),
    monitor: &mut HostMonitor<'_>,
    stream: &mut TcpStream,
) -> Duration {
    let start = Instant::now(rt).expect(rt, "a clock");
    for _ in 0..10_000u32 {
        let _ = tell(monitor, &NUMBERS);
        if is_closed(rt, stream) {
            break;
        }
    }
    start.elapsed(rt).expect(rt, "a clock")
}

// What is no whole request is closed without an answer, once it had a second and a half to come where its sender stays.
fn what_is_no_request_is_closed(
    rt: &(impl Abort + AllocGlobal + Clock),
    host: &HostRuntime,
    monitor: &mut HostMonitor<'_>,
    place: &str,
) {
    let long = vec![in rt.alloc(); b'x'; 8_192].expect(rt, "memory");
    let long = str::from_utf8(&long).expect(rt, "a text");
    for request in ["", "GET /metrics HTTP/1.1\r\n"] {
        let (_, text) = answer(rt, host, monitor, place, request, &NUMBERS);
        assert!(rt; text.is_empty(), "{request}");
    }
    let mut whole = asker(rt, host, place, long);
    let _ = tell(monitor, &NUMBERS);
    assert!(rt;
        whole.read(&mut [0u8; 8]).unwrap_or(0) == 0,
        "it is too long"
    );
    for request in ["", "GET /metrics HTTP/1.1\r\n"] {
        let mut stream = asker(rt, host, place, request);
        let waited = closed_after(rt, monitor, &mut stream);
        assert!(rt; Duration::from_millis(1_400) < waited, "{request}");
        assert!(rt; waited < Duration::from_secs(20), "{request}");
    }
}

// Sends the request in two halves with a while between them, and stays connected until it has heard the answer.
fn asks_slowly(rt: &(impl Abort + AllocGlobal + Clock), stream: TcpStream) -> String {
    let mut stream = stream;
    thread::sleep(rt, Duration::from_millis(300));
    let sent = stream.write_all(b"\r\n");
    assert!(rt; sent.is_ok());
    heard(rt, stream)
}

// Tells numbers until the peer has heard an answer and its end. Gives what it heard, and how long that took.
fn told(
    rt: &(impl Abort + AllocGlobal + Clock),
    monitor: &mut HostMonitor<'_>,
    stream: TcpStream,
) -> (String, Duration) {
    let mut stream = stream;
    let (mut text, mut buf) = (String::new(rt.alloc()), [0u8; 512]);
    let start = Instant::now(rt).expect(rt, "a clock");
    assert!(rt; stream.set_nonblocking(true).is_ok());
    for _ in 0..100_000u32 {
        let _ = tell(monitor, &NUMBERS);
        match stream.read(&mut buf) {
            Ok(0) => break,
            Ok(n) => {
                let part = str::from_utf8(&buf[..n]).expect(rt, "a text");
                assert!(rt; text.push_str(part).is_ok());
            }
            Err(_) => {}
        }
    }
    (text, start.elapsed(rt).expect(rt, "a clock"))
}

// One whose request comes slowly is answered after one who comes later and asks at once.
fn who_asks_at_once_is_answered_first(
    rt: &(impl Abort + AllocGlobal + Clock + Sync + Threads),
    host: &HostRuntime,
    monitor: &mut HostMonitor<'_>,
    place: &str,
) {
    let slow = asker(rt, host, place, "GET /health HTTP/1.1\r\n");
    let next = asker(rt, host, place, HEALTH);
    let (text, heard_next) = thread::join(
        rt,
        || asks_slowly(rt, slow),
        || {
            let (text, waited) = told(rt, monitor, next);
            assert!(rt; waited < Duration::from_millis(250), "{waited:?}");
            for _ in 0..100u32 {
                let _ = tell(monitor, &NUMBERS);
            }
            text
        },
    );
    assert!(rt; assert_answer(rt, &text, "200 OK") == "ok\n");
    assert!(rt; assert_answer(rt, &heard_next, "200 OK") == "ok\n");
}

// Whoever is silent keeps nobody waiting: of 64 of them the first is closed for one more.
fn silent_askers_keep_nobody_waiting(
    rt: &(impl Abort + AllocGlobal + Clock),
    host: &HostRuntime,
    monitor: &mut HostMonitor<'_>,
    place: &str,
) {
    let mut silent = Vec::new(rt.alloc());
    for _ in 0..64u32 {
        let stream = asker(rt, host, place, "GET /health HTTP/1.1\r\n");
        assert!(rt; silent.push(stream).is_ok());
    }
    let _ = tell(monitor, &NUMBERS);
    let next = asker(rt, host, place, HEALTH);
    let (text, waited) = told(rt, monitor, next);
    assert!(rt; waited < Duration::from_secs(1), "{waited:?}");
    assert!(rt; assert_answer(rt, &text, "200 OK") == "ok\n");
    for (number, stream) in silent.iter_mut().enumerate() {
        assert!(rt; is_closed(rt, stream) == (number == 0), "{number}");
    }
    drop(silent);
    let _ = tell(monitor, &NUMBERS);
}

// The monitor asks itself once a second.
fn nobody_asks(rt: &(impl Abort + Clock), monitor: &mut HostMonitor<'_>) {
    let start = Instant::now(rt).expect(rt, "a clock");
    assert!(rt; tell(monitor, &NUMBERS), "the first look");
    for _ in 0..1_000u32 {
        if tell(monitor, &NUMBERS) {
            break;
        }
    }
    let waited = start.elapsed(rt).expect(rt, "a clock");
    assert!(rt; Duration::from_millis(990) < waited && waited < Duration::from_secs(10));
    let start = Instant::now(rt).expect(rt, "a clock");
    assert!(rt; !monitor.is_asked());
    let waited = start.elapsed(rt).expect(rt, "a clock");
    assert!(rt; Duration::from_millis(25) < waited);
}

// What `/health` says, by these numbers.
fn health(
    rt: &(impl Abort + AllocGlobal),
    host: &HostRuntime,
    monitor: &mut HostMonitor<'_>,
    place: &str,
    numbers: &SpoolNumbers,
) -> String {
    let (is_asked, text) = answer(rt, host, monitor, place, HEALTH, numbers);
    assert!(rt; is_asked);
    text
}

// A connection of a sender comes, and ends so, with 67.
fn serve_one(rt: &impl Abort, net: &mut TcpNet<'_, HostRuntime>, place: &str, talk: Talk) {
    let mut door = bound(rt, net, place);
    let (near, far) = pair(rt, net, &mut door, place);
    net.hang_up(near);
    assert!(rt; door.give_back(far, Proto::Relp, 0, 67, talk).is_ok());
}

fn health_says_what_is_wrong(
    rt: &(impl Abort + AllocGlobal),
    host: &HostRuntime,
    reports: &Reports,
) {
    let mut net = TcpNet::with_waits(rt.alloc(), host, reports, quick());
    let place = free_place(rt, host);
    let mut monitor = net.monitor(&place).expect(rt, "a free port");
    let text = health(rt, host, &mut monitor, &place, &FULL);
    assert!(rt;
        assert_answer(rt, &text, "200 OK") == "ok\n",
        "nothing was refused"
    );
    for talk in [Talk::TooLarge { need: 9, most: 8 }, Talk::Busy { held: 7 }] {
        serve_one(rt, &mut net, &free_place(rt, host), talk);
        let text = health(rt, host, &mut monitor, &place, &FULL);
        assert!(rt;
            assert_answer(rt, &text, "200 OK") == "ok\n",
            "it isn't room that lacked"
        );
    }
    let full = Talk::Full { need: 9, room: 8 };
    serve_one(rt, &mut net, &free_place(rt, host), full);
    let wrong = "503 Service Unavailable";
    for _ in 0..2 {
        let text = health(rt, host, &mut monitor, &place, &FULL);
        assert!(rt; assert_answer(rt, &text, wrong) == "FILE has no room\n");
    }
    let text = health(rt, host, &mut monitor, &place, &NUMBERS);
    assert!(rt;
        assert_answer(rt, &text, "200 OK") == "ok\n",
        "a slot is free"
    );
    let (_, text) = answer(rt, host, &mut monitor, &place, METRICS, &FULL);
    assert!(rt; has_line(&text, "bridge_spool_full 1"));
    let text = health(rt, host, &mut monitor, &place, &STORED);
    assert!(rt;
        assert_answer(rt, &text, "200 OK") == "ok\n",
        "an event had room"
    );
    reports.disk().fails(host);
    let text = health(rt, host, &mut monitor, &place, &STORED);
    assert!(rt; assert_answer(rt, &text, wrong) == "a call on FILE failed\n");
    reports.disk().is_well();
    let text = health(rt, host, &mut monitor, &place, &STORED);
    assert!(rt; assert_answer(rt, &text, "200 OK") == "ok\n");
}

// The page, of which each of these lines is one.
fn assert_page(
    rt: &(impl Abort + AllocGlobal),
    host: &HostRuntime,
    monitor: &mut HostMonitor<'_>,
    place: &str,
    lines: &[&str],
) {
    let (_, text) = answer(rt, host, monitor, place, METRICS, &NUMBERS);
    for line in lines {
        assert!(rt; has_line(&text, line), "{line} in {text}");
    }
}

// A line of what a place counts.
fn sample(rt: &(impl Abort + AllocGlobal), name: &str, place: &str, rest: &str) -> String {
    format!(in rt.alloc(); "bridge_connections_{name}{{place=\"{place}\"{rest}").expect(
        rt, "memory",
    )
}

fn connections_are_counted(rt: &(impl Abort + AllocGlobal), host: &HostRuntime) {
    let reports = Reports::quiet();
    let mut net = TcpNet::with_waits(rt.alloc(), host, &reports, quick());
    let (place, senders) = (free_place(rt, host), free_place(rt, host));
    let mut monitor = net.monitor(&place).expect(rt, "a free port");
    let mut door = bound(rt, &mut net, &senders);
    let (near, mut far) = pair(rt, &mut net, &mut door, &senders);
    let accepted = sample(rt, "accepted_total", &senders, "} 1");
    let open = sample(rt, "open", &senders, "} 1");
    let lines = [
        accepted.as_str(),
        open.as_str(),
        "bridge_receiver_sessions_total 1",
        "bridge_receiver_dials_failed_total 0",
        "bridge_sender_refusals_total{protocol=\"hec\",code=\"400\"} 0",
    ];
    assert_page(rt, host, &mut monitor, &place, &lines);
    assert!(rt; far.write(b"HTTP/1.1 400 No\r\n").is_ok());
    net.hang_up(near);
    let talk = Talk::Fault {
        at: 7,
        why: Why::BadHead,
    };
    assert!(rt; door.give_back(far, Proto::Hec, 0, 66, talk).is_ok());
    assert!(rt; net.dial("127.0.0.1").is_err());
    let rest = ",protocol=\"hec\",status=\"66\"} 1";
    let ended = sample(rt, "ended_total", &senders, rest);
    let open = sample(rt, "open", &senders, "} 0");
    let lines = [
        accepted.as_str(),
        open.as_str(),
        ended.as_str(),
        "bridge_receiver_dials_failed_total 1",
        "bridge_sender_refusals_total{protocol=\"hec\",code=\"400\"} 1",
    ];
    assert_page(rt, host, &mut monitor, &place, &lines);
}

fn a_place_that_cannot_be_bound_is_a_fault(
    rt: &impl Abort,
    net: &mut TcpNet<'_, HostRuntime>,
    place: &str,
) {
    let door = bound(rt, net, place);
    let taken = net.monitor(place);
    assert!(rt; matches!(taken, Err(NetFault::Fault)), "the port is taken");
    drop(door);
    assert!(rt; net.monitor(place).is_ok(), "the port is free again");
    assert!(rt;
        matches!(net.monitor("127.0.0.1"), Err(NetFault::Fault)),
        "no port"
    );
}

// The doors of a place don't wait for each other.
fn quick() -> Waits {
    Waits {
        roll: Duration::ZERO,
        ..Waits::standard()
    }
}

/// Each is done at a port of its own.
pub(crate) fn those_who_ask_are_answered(
    rt: &(impl Abort + AllocGlobal + Clock + Sync + Threads),
    host: &HostRuntime,
) {
    let reports = Reports::quiet();
    let mut net = TcpNet::with_waits(rt.alloc(), host, &reports, quick());
    let place = free_place(rt, host);
    let mut monitor = net.monitor(&place).expect(rt, "a free port");
    nobody_asks(rt, &mut monitor);
    numbers_are_told_as_they_are(rt, host, &mut monitor, &place);
    other_requests_are_refused(rt, host, &mut monitor, &place);
    what_is_no_request_is_closed(rt, host, &mut monitor, &place);
    who_asks_at_once_is_answered_first(rt, host, &mut monitor, &place);
    silent_askers_keep_nobody_waiting(rt, host, &mut monitor, &place);
    health_says_what_is_wrong(rt, host, &reports);
    connections_are_counted(rt, host);
    a_place_that_cannot_be_bound_is_a_fault(rt, &mut net, &free_place(rt, host));
}
