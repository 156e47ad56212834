//! What a net says of what befalls its doors and links, by a clock and a standard error in memory.
use crate::sockets::free_place;
use crate::staged::Staged;
use edge_io::{Door, HeldUp, Net, Pause, Proto, Sink, Source};
use edge_net::{Reports, TcpDoor, TcpLink, TcpNet, TokenFile, TokenPlace, Waits};
use event_form::{Talk, Why};
use std::alloc::Global;
use std::process::Abort;
use std::time::Duration;

type StagedNet<'a, 'h> = TcpNet<'a, Staged<'h>>;

type StagedDoor<'a, 'h> = TcpDoor<'a, Staged<'h>>;

type StagedLink<'a, 'h> = TcpLink<'a, Staged<'h>>;

// A minute, in milliseconds.
const MINUTE: u64 = 60_000;

// An entry that a receiver refuses.
const REFUSED: HeldUp = HeldUp {
    number: 17,
    proto: Proto::Relp,
    len: Some(131_072),
    code: Some(500),
};

// One at which the receiver is lost.
const LOST: HeldUp = HeldUp {
    code: None,
    ..REFUSED
};

// What is said of each of them, by its number; `None`: nothing.
const HELD_UP: [(HeldUp, Option<&str>); 8] = [
    (REFUSED, Some("is held up, refused with 500")),
    (REFUSED, None),
    (
        HeldUp {
            number: 18,
            len: Some(131_073),
            ..REFUSED
        },
        Some(
            "is held up, refused with 500; it has 131073 bytes by RELP, and a bridge takes 131072 at most",
        ),
    ),
    (HeldUp { number: 19, ..LOST }, None),
    (HeldUp { number: 19, ..LOST }, Some("is held up")),
    (
        HeldUp {
            number: 20,
            proto: Proto::Lumberjack,
            len: None,
            code: Some(0),
        },
        Some("is held up, refused with 0"),
    ),
    (
        HeldUp {
            number: 21,
            proto: Proto::Lumberjack,
            len: Some(200_000),
            code: None,
        },
        None,
    ),
    (
        HeldUp {
            number: 21,
            proto: Proto::Lumberjack,
            len: Some(200_000),
            code: None,
        },
        Some("is held up; it has 200000 bytes by Lumberjack, and a bridge takes 131072 at most"),
    ),
];

// The bytes of a sender break its protocol.
const BROKEN: Talk = Talk::Fault {
    at: 7,
    why: Why::BadHead,
};

// How a connection ends, the status of that, and what is said.
const ENDINGS: [(Talk, u8, &str); 14] = [
    (
        BROKEN,
        66,
        "66: its bytes break the protocol at byte 7: bad head",
    ),
    (
        Talk::Fault {
            at: 1_048_580,
            why: Why::TooLong,
        },
        66,
        "66: its bytes break the protocol at byte 1048580: too long",
    ),
    (
        Talk::Full {
            need: 300,
            room: 20,
        },
        67,
        "67: FILE has no room; 300 bytes needed, 20 free",
    ),
    (
        Talk::TooLarge {
            need: 300,
            most: 200,
        },
        67,
        "67: the event is larger than a slot of FILE; 300 bytes needed, 200 at most",
    ),
    (
        Talk::Busy { held: 10_000 },
        67,
        "67: the table of ack ids is full; it holds 10000",
    ),
    (
        Talk::Truncated { at: 12 },
        75,
        "75: it ended in a frame at byte 12",
    ),
    (
        Talk::NotSpool { at: 4_096 },
        65,
        "65: FILE is no spool at byte 4096",
    ),
    (Talk::NoMemory, 70, "70: no memory"),
    (Talk::DiskFault, 73, "73: a call on FILE failed"),
    (
        Talk::TooMuch { at: 1 },
        77,
        "77: it sent as much as a connection may",
    ),
    (
        Talk::Spent { end: 1 },
        77,
        "77: the numbers of entries are spent",
    ),
    (
        Talk::NoMore { run: 1 },
        77,
        "77: the ack ids of this run are spent",
    ),
    (Talk::ReadFault, 71, "71: a read failed"),
    (Talk::WriteFault, 72, "72: a write failed"),
];

// A reply after which its connection ends, how that does, its status, and what is said of both.
const LAST_REPLIES: [(&str, Talk, u8, &str); 6] = [
    (
        "503 No\r\nConnection: close\r\n\r\n{\"code\":9}",
        Talk::Full { need: 9, room: 8 },
        67,
        "503, code 9: FILE has no room; 9 bytes needed, 8 free",
    ),
    (
        "503 No\r\nConnection: close\r\n\r\n{\"code\":9}",
        Talk::Busy { held: 1_000 },
        67,
        "503, code 9: the table of ack ids is full; it holds 1000",
    ),
    (
        "400 No\r\nConnection: close\r\n\r\n{\"code\":6}",
        BROKEN,
        66,
        "400, code 6: its bytes break the protocol at byte 7: bad head",
    ),
    (
        "403 No\r\nConnection: close\r\n\r\n{\"code\":4}",
        Talk::Ended,
        0,
        "403, code 4: its token isn't known",
    ),
    // what comes after the reply is no reason of it
    (
        "401 No\r\nConnection: close\r\n\r\n{\"code\":2}",
        Talk::ReadFault,
        71,
        "401, code 2: it has no token",
    ),
    (
        "503 No\r\nConnection: close\r\n\r\n",
        Talk::Truncated { at: 4 },
        75,
        "503",
    ),
];

// What a sender writes, piece by piece, the reply by which it is refused, and what is said of the token's line in the file `tokens`: the first
// token stands in line 3, the second one in lines 5 and 7.
const TOKEN_LINES: [(&[&str], &str, &str); 16] = [
    (
        &["POST / HTTP/1.1\r\nAuthorization: Splunk 11111111-2222-3333-4444-555555555555\r\n\r\n"],
        "400 No\r\n\r\n{\"code\":14}",
        "400, code 14: its token has no ack ids; it stands in line 3 of tokens",
    ),
    // the first of two lines, and another spelling
    (
        &[
            "POST / HTTP/1.1\r\nAuthorization: sPLUNK AAAAAAAA222233334444555555555555\r\nHost: x\r\n\r\n",
        ],
        "400 No\r\n\r\n{\"code\":14}",
        "400, code 14: its token has no ack ids; it stands in line 5 of tokens",
    ),
    // the same one again, after one without
    (
        &[
            "POST / HTTP/1.1\r\n\r\n",
            "POST / HTTP/1.1\r\nAuthorization: Splunk 11111111-2222-3333-4444-555555555555\r\nContent-Length: 2\r\n\r\n{}",
            "POST / HTTP/1.1\r\nAuthorization: Splunk 11111111-2222-3333-4444-555555555555\r\nContent-Length: 0\r\n\r\n",
        ],
        "400 No\r\n\r\n{\"code\":14}",
        "400, code 14: its token has no ack ids; it stands in line 3 of tokens",
    ),
    // a body has one, in the piece of its head and in another
    (
        &[
            "POST / HTTP/1.1\r\nAuthorization: Splunk 11111111-2222-3333-4444-555555555555\r\nContent-Length: 75\r\n\r\nPOST / HTTP/1.1\r\nAuthorization: Splunk AAAAAAAA222233334444555555555555\r\n\r\n",
        ],
        "400 No\r\n\r\n{\"code\":14}",
        "400, code 14: its token has no ack ids; it stands in line 3 of tokens",
    ),
    (
        &[
            "POST / HTTP/1.1\r\nAuthorization: Splunk 11111111-2222-3333-4444-555555555555\r\nContent-Length: 77\r\n\r\n",
            "POST / HTTP/1.1\r\nAuthorization: Splunk AAAAAAAA222233334444555555555555\r\n\r\n",
            "{}",
        ],
        "400 No\r\n\r\n{\"code\":14}",
        "400, code 14: its token has no ack ids; it stands in line 3 of tokens",
    ),
    // which ends its connection
    (
        &["POST / HTTP/1.1\r\nAuthorization: Splunk 11111111-2222-3333-4444-555555555555\r\n\r\n"],
        "400 No\r\nConnection: close\r\n\r\n{\"code\":14}",
        "400, code 14: its token has no ack ids; it stands in line 3 of tokens",
    ),
    // another reason
    (
        &["POST / HTTP/1.1\r\nAuthorization: Splunk 11111111-2222-3333-4444-555555555555\r\n\r\n"],
        "403 No\r\n\r\n{\"code\":4}",
        "403, code 4: its token isn't known",
    ),
    // it stands in no line
    (
        &["POST / HTTP/1.1\r\nAuthorization: Splunk 99999999-2222-3333-4444-555555555555\r\n\r\n"],
        "400 No\r\n\r\n{\"code\":14}",
        "400, code 14: its token has no ack ids",
    ),
    // two of them, in two pieces and in one
    (
        &[
            "POST / HTTP/1.1\r\nAuthorization: Splunk 11111111-2222-3333-4444-555555555555\r\n\r\n",
            "POST / HTTP/1.1\r\nAuthorization: Splunk AAAAAAAA222233334444555555555555\r\n\r\n",
        ],
        "400 No\r\n\r\n{\"code\":14}",
        "400, code 14: its token has no ack ids",
    ),
    (
        &[
            "POST / HTTP/1.1\r\nAuthorization: Splunk 11111111-2222-3333-4444-555555555555\r\n\r\nPOST / HTTP/1.1\r\nAuthorization: Splunk AAAAAAAA222233334444555555555555\r\n\r\n",
        ],
        "400 No\r\n\r\n{\"code\":14}",
        "400, code 14: its token has no ack ids",
    ),
    // a head in two pieces
    (
        &[
            "POST / HTTP/1.1\r\nAuthorization",
            ": Splunk 11111111-2222-3333-4444-555555555555\r\n\r\n",
        ],
        "400 No\r\n\r\n{\"code\":14}",
        "400, code 14: its token has no ack ids",
    ),
    // after a head in two pieces
    (
        &[
            "POST / HTTP/1.1\r\nAuthorization: Splunk A",
            "AAAAAAA222233334444555555555555\r\n\r\n",
            "POST / HTTP/1.1\r\nAuthorization: Splunk 11111111-2222-3333-4444-555555555555\r\n\r\n",
        ],
        "400 No\r\n\r\n{\"code\":14}",
        "400, code 14: its token has no ack ids",
    ),
    // a body that ends in the piece of the next request
    (
        &[
            "POST / HTTP/1.1\r\nAuthorization: Splunk 11111111-2222-3333-4444-555555555555\r\nContent-Length: 2\r\n\r\n",
            "{}POST / HTTP/1.1\r\nAuthorization: Splunk AAAAAAAA222233334444555555555555\r\n\r\n",
        ],
        "400 No\r\n\r\n{\"code\":14}",
        "400, code 14: its token has no ack ids",
    ),
    // a length that is said twice, and none that is said
    (
        &[
            "POST / HTTP/1.1\r\nAuthorization: Splunk 11111111-2222-3333-4444-555555555555\r\nContent-Length: 0\r\nContent-Length: 2\r\n\r\n",
        ],
        "400 No\r\n\r\n{\"code\":14}",
        "400, code 14: its token has no ack ids",
    ),
    (
        &[
            "POST / HTTP/1.1\r\nAuthorization: Splunk 11111111-2222-3333-4444-555555555555\r\nTransfer-Encoding: chunked\r\n\r\n",
        ],
        "400 No\r\n\r\n{\"code\":14}",
        "400, code 14: its token has no ack ids",
    ),
    // no GUID
    (
        &["POST / HTTP/1.1\r\nAuthorization: Splunk A\r\n\r\n"],
        "400 No\r\n\r\n{\"code\":14}",
        "400, code 14: its token has no ack ids",
    ),
];

// Waits of a second for a peer, and none of doors for each other.
pub(crate) fn waits() -> Waits {
    Waits {
        accepted: Duration::from_secs(1),
        dialed: Duration::from_secs(1),
        roll: Duration::ZERO,
    }
}

// That just this line was printed, which begins and ends so.
fn assert_line(rt: &impl Abort, staged: &Staged<'_>, start: &str, end: &str) {
    let lines = staged.take_lines(rt);
    let [line] = lines.as_slice() else {
        panic!(rt; "one line, not {lines:?}: {start} .. {end}");
    };
    assert!(rt; line.starts_with(start) && line.ends_with(end), "{line}");
}

// That none was.
fn assert_silence(rt: &impl Abort, staged: &Staged<'_>) {
    let lines = staged.take_lines(rt);
    assert!(rt; lines.is_empty(), "{lines:?}");
}

// That just a line about the receiver at this place was printed, which says this; one about a sender may stand before it.
fn assert_receiver(rt: &impl Abort, staged: &Staged<'_>, place: &str, words: &str) {
    let lines = staged.take_lines(rt);
    let ([line] | [_, line]) = lines.as_slice() else {
        panic!(rt; "one line, not {lines:?}: {words}");
    };
    if let [other, _] = lines.as_slice() {
        assert!(rt; other.starts_with("bridge: sender 127.0.0.1:"), "{lines:?}");
    }
    let rest = line.strip_prefix("bridge: receiver ");
    let rest = rest.and_then(|rest| rest.strip_prefix(place));
    assert!(rt; rest == Some(words), "{line}");
}

// That just a line about a sender of this machine was printed, which ends so.
fn assert_sender(rt: &impl Abort, staged: &Staged<'_>, words: &str) {
    assert_line(rt, staged, "bridge: sender 127.0.0.1:", words);
}

// A door that is bound at the place, which is said.
pub(crate) fn bound<'a, 'h>(
    rt: &impl Abort,
    staged: &Staged<'_>,
    net: &mut StagedNet<'a, 'h>,
    place: &str,
) -> StagedDoor<'a, 'h> {
    let mut doors = net.bind(place, 1).expect(rt, "a free port");
    assert_line(rt, staged, "bridge: listening on ", place);
    doors.pop().expect(rt, "one door")
}

// A link that is dialed, and the one that is accepted for it.
pub(crate) fn pair<'a, 'h>(
    rt: &impl Abort,
    net: &mut StagedNet<'a, 'h>,
    door: &mut StagedDoor<'a, 'h>,
    place: &str,
) -> (StagedLink<'a, 'h>, StagedLink<'a, 'h>) {
    let near = net.dial(place).expect(rt, "a port that listens");
    let far = door.accept(5).expect(rt, "a connection waits");
    (near, far.expect(rt, "no door is shut"))
}

// Sends the text, which the other link reads.
pub(crate) fn pass(
    rt: &impl Abort,
    from: &mut StagedLink<'_, '_>,
    to: &mut StagedLink<'_, '_>,
    text: &str,
) {
    let mut buf = [0u8; 64];
    assert!(rt; from.write(text.as_bytes()) == Ok(text.len()));
    assert!(rt; to.read(&mut buf) == Ok(text.len()));
}

fn a_place_that_is_taken_is_named(
    rt: &impl Abort,
    staged: &Staged<'_>,
    net: &mut StagedNet<'_, '_>,
    place: &str,
) {
    let door = bound(rt, staged, net, place);
    assert!(rt; net.bind(place, 1).is_err(), "the port is taken");
    let reason = ": Address already in use (os error 98)";
    assert_line(rt, staged, "bridge: can't listen on 127.0.0.1:", reason);
    drop(door);
}

// A place that has no port is said to have none.
fn a_place_without_a_port_is_named(
    rt: &impl Abort,
    staged: &Staged<'_>,
    net: &mut StagedNet<'_, '_>,
) {
    for place in ["nowhere", "127.0.0.1:", "127.0.0.1:65536", "[::1]"] {
        assert!(rt; net.bind(place, 1).is_err(), "{place}");
        assert_line(rt, staged, "bridge: can't listen on ", place);
    }
    assert!(rt; net.dial("nowhere").is_err(), "nowhere");
    assert_receiver(
        rt,
        staged,
        "nowhere",
        ": can't reach it: no port in nowhere",
    );
}

// A place where those come in who ask for numbers is said, and so is one that is taken.
fn a_monitor_is_said(
    rt: &impl Abort,
    staged: &Staged<'_>,
    net: &mut StagedNet<'_, '_>,
    place: &str,
) {
    let monitor = net.monitor(place).expect(rt, "a free port");
    let words = " for those who ask for numbers";
    assert_line(rt, staged, "bridge: listening on 127.0.0.1:", words);
    assert!(rt; net.monitor(place).is_err(), "the port is taken");
    let reason = ": Address already in use (os error 98)";
    assert_line(rt, staged, "bridge: can't listen on 127.0.0.1:", reason);
    drop(monitor);
}

// A receiver isn't reached, and then it is.
fn a_receiver_is_reached_again(
    rt: &impl Abort,
    staged: &Staged<'_>,
    net: &mut StagedNet<'_, '_>,
    place: &str,
) {
    assert!(rt; net.dial(place).is_err(), "nobody listens");
    let reason = ": can't reach it: Connection refused (os error 111)";
    assert_receiver(rt, staged, place, reason);
    assert!(rt; net.dial(place).is_err(), "nobody listens");
    assert_silence(rt, staged);
    let mut door = bound(rt, staged, net, place);
    // a session in which nothing came shows nothing
    let (near, far) = pair(rt, net, &mut door, place);
    net.hang_up(near);
    drop(far);
    assert_silence(rt, staged);
    let (mut near, mut far) = pair(rt, net, &mut door, place);
    pass(rt, &mut far, &mut near, "1 rsp 6 200 OK\n");
    assert_silence(rt, staged);
    net.hang_up(near);
    assert_receiver(rt, staged, place, " is well again; failures meanwhile: 1");
}

// A receiver ends the connection after one of these texts.
fn a_receiver_closes(
    rt: &impl Abort,
    staged: &Staged<'_>,
    net: &mut StagedNet<'_, '_>,
    place: &str,
) {
    let mut door = bound(rt, staged, net, place);
    for (text, words) in [
        (
            "1 rsp 6 200 OK\n",
            ": it closed the connection while an answer was due",
        ),
        (
            "HTTP/1.1 200 OK\r\n",
            ": it closed the connection after a reply, and has to keep it open",
        ),
        (
            "HTTP/1.1 403 Forbidden\r\n",
            ": it refuses what is sent with 403",
        ),
        ("2 rsp 9 500 error\n", ": it refuses what is sent with 500"),
    ] {
        staged.pass(MINUTE);
        let (mut near, mut far) = pair(rt, net, &mut door, place);
        pass(rt, &mut far, &mut near, text);
        drop(far);
        assert!(rt; near.read(&mut [0u8; 8]) == Ok(0));
        // one line for a session
        assert_receiver(rt, staged, place, words);
        net.hang_up(near);
        assert_silence(rt, staged);
    }
}

// Writes pieces of 64 KiB until one fails, 1,024 at most.
fn write_until_it_fails(link: &mut StagedLink<'_, '_>) -> bool {
    let piece = [b'x'; 65_536];
    for _ in 0..1_024 {
        if link.write(&piece).is_err() {
            return true;
        }
    }
    false
}

fn a_receiver_hangs(
    rt: &impl Abort,
    staged: &Staged<'_>,
    net: &mut StagedNet<'_, '_>,
    place: &str,
) {
    let mut door = bound(rt, staged, net, place);
    staged.pass(MINUTE);
    let (mut near, far) = pair(rt, net, &mut door, place);
    assert!(rt; near.read(&mut [0u8; 8]).is_err());
    assert_receiver(rt, staged, place, ": it sent nothing for 1 seconds");
    net.hang_up(near);
    drop(far);
    staged.pass(MINUTE);
    let (mut near, far) = pair(rt, net, &mut door, place);
    assert!(rt; write_until_it_fails(&mut near));
    assert_receiver(rt, staged, place, ": it took nothing for 1 seconds");
    net.hang_up(near);
    drop(far);
    assert_silence(rt, staged);
}

fn an_entry_that_is_held_up_is_said(
    rt: &impl Abort,
    alloc: Global,
    staged: &Staged<'_>,
    net: &mut StagedNet<'_, '_>,
) {
    for (held_up, words) in HELD_UP {
        // (ten seconds after the line before)
        staged.pass(MINUTE / 6);
        net.report_held_up("10.0.0.7:514", &held_up);
        let Some(words) = words else {
            assert_silence(rt, staged);
            continue;
        };
        let number = held_up.number;
        let line = format!(in alloc; ": entry {number} {words}").expect(rt, "memory");
        assert_receiver(rt, staged, "10.0.0.7:514", &line);
    }
    staged.pass(MINUTE);
    net.report_held_up("nowhere", &REFUSED);
    let line = ": entry 17 is held up, refused with 500";
    assert_receiver(rt, staged, "nowhere", line);
}

// A sender's connection is served to its end, which is this one and has this status.
fn serve_to<'a, 'h>(
    rt: &impl Abort,
    net: &mut StagedNet<'a, 'h>,
    door: &mut StagedDoor<'a, 'h>,
    place: &str,
    proto: Proto,
    status: u8,
    talk: Talk,
) {
    let (near, far) = pair(rt, net, door, place);
    net.hang_up(near);
    assert!(rt; door.give_back(far, proto, 0, status, talk).is_ok());
}

fn endings_are_said_once_a_minute(
    rt: &impl Abort,
    staged: &Staged<'_>,
    net: &mut StagedNet<'_, '_>,
    place: &str,
) {
    let mut door = bound(rt, staged, net, place);
    let fault = |at| Talk::Fault {
        at,
        why: Why::Digits,
    };
    serve_to(rt, net, &mut door, place, Proto::Relp, 0, Talk::Ended);
    assert_silence(rt, staged);
    let words =
        ": its RELP connection ended with 66: its bytes break the protocol at byte 23: digits";
    serve_to(rt, net, &mut door, place, Proto::Relp, 66, fault(23));
    assert_sender(rt, staged, words);
    // the same at other places
    serve_to(rt, net, &mut door, place, Proto::Relp, 66, fault(24));
    serve_to(rt, net, &mut door, place, Proto::Relp, 66, fault(25));
    assert_silence(rt, staged);
    staged.pass(MINUTE);
    serve_to(rt, net, &mut door, place, Proto::Relp, 66, fault(26));
    let words = " at byte 26: digits; 3 times since the last such line";
    assert_sender(rt, staged, words);
}

// Each with its place, its reason and its numbers.
fn endings_are_said_by_their_kinds(
    rt: &impl Abort,
    alloc: Global,
    staged: &Staged<'_>,
    net: &mut StagedNet<'_, '_>,
    place: &str,
) {
    let mut door = bound(rt, staged, net, place);
    for (talk, status, words) in ENDINGS {
        staged.pass(MINUTE / 600);
        serve_to(rt, net, &mut door, place, Proto::Lumberjack, status, talk);
        let line = format!(in alloc; ": its Lumberjack connection ended with {words}");
        assert_sender(rt, staged, line.expect(rt, "memory").as_str());
    }
}

// A reply that ends its connection is said at the connection's end, with that.
fn last_refusals_are_said_with_the_end(
    rt: &impl Abort,
    alloc: Global,
    staged: &Staged<'_>,
    net: &mut StagedNet<'_, '_>,
    place: &str,
) {
    let mut door = bound(rt, staged, net, place);
    for (reply, talk, status, words) in LAST_REPLIES {
        let text = format!(in alloc; "HTTP/1.1 {reply}").expect(rt, "memory");
        let (near, mut far) = pair(rt, net, &mut door, place);
        assert!(rt; far.write(text.as_bytes()) == Ok(text.len()));
        assert_silence(rt, staged);
        drop(near);
        assert!(rt; door.give_back(far, Proto::Hec, 0, status, talk).is_ok());
        let line = format!(in alloc; ": a request was refused with {words}");
        assert_sender(rt, staged, line.expect(rt, "memory").as_str());
    }
}

// A sender's connection breaks by a reset, after a text of it was read or before one came.
fn resets_are_said(rt: &impl Abort, staged: &Staged<'_>, net: &mut StagedNet<'_, '_>, place: &str) {
    let mut door = bound(rt, staged, net, place);
    for is_read in [false, true] {
        let (mut near, mut far) = pair(rt, net, &mut door, place);
        if is_read {
            pass(rt, &mut near, &mut far, "1 open 0\n");
        }
        assert!(rt; far.write(b"unread") == Ok(6));
        assert!(rt; near.read(&mut [0u8; 1]) == Ok(1));
        // closed with bytes unread, it resets the connection
        net.hang_up(near);
        assert!(rt; far.read(&mut [0u8; 16]).is_err());
        assert!(rt;
            door.give_back(far, Proto::Relp, 0, 71, Talk::ReadFault)
                .is_ok()
        );
        if is_read {
            let words = ": its RELP connection ended with 71: it reset the connection";
            assert_sender(rt, staged, words);
        } else {
            assert_silence(rt, staged);
        }
    }
}

fn waits_in_vain_are_said(
    rt: &impl Abort,
    staged: &Staged<'_>,
    net: &mut StagedNet<'_, '_>,
    place: &str,
) {
    let mut door = bound(rt, staged, net, place);
    let (near, mut far) = pair(rt, net, &mut door, place);
    assert!(rt; far.read(&mut [0u8; 8]).is_err());
    drop(near);
    assert!(rt;
        door.give_back(far, Proto::Hec, 0, 71, Talk::ReadFault)
            .is_ok()
    );
    let words = ": its HEC connection ended with 71: it sent nothing for 1 seconds";
    assert_sender(rt, staged, words);
    let (near, mut far) = pair(rt, net, &mut door, place);
    assert!(rt; write_until_it_fails(&mut far));
    drop(near);
    assert!(rt;
        door.give_back(far, Proto::Hec, 0, 72, Talk::WriteFault)
            .is_ok()
    );
    let words = ": its HEC connection ended with 72: it took nothing for 1 seconds";
    assert_sender(rt, staged, words);
}

fn refusals_are_said_by_their_codes(
    rt: &impl Abort,
    staged: &Staged<'_>,
    net: &mut StagedNet<'_, '_>,
    place: &str,
) {
    let mut door = bound(rt, staged, net, place);
    for (text, words) in [
        ("HTTP/1.1 401 No\r\n", ": a request was refused with 401"),
        ("HTTP/1.1 503 No\r\n", ": a request was refused with 503"),
        (
            "HTTP/1.1 401 No\r\n\r\n{\"text\":\"Token is required\",\"code\":2}",
            ": a request was refused with 401, code 2: it has no token",
        ),
        (
            "HTTP/1.1 403 No\r\n\r\n{\"text\":\"Invalid token\",\"code\":4}",
            ": a request was refused with 403, code 4: its token isn't known",
        ),
        (
            "HTTP/1.1 400 No\r\n\r\n{\"text\":\"ACK is disabled\",\"code\":14}",
            ": a request was refused with 400, code 14: its token has no ack ids",
        ),
        (
            "HTTP/1.1 400 No\r\n\r\n{\"code\":6,\"invalid-event-number\":1}",
            ": a request was refused with 400, code 6: its body isn't one that is taken",
        ),
        ("2 rsp 12 500 not open\n", ": a frame was refused with 500"),
    ] {
        let (mut near, mut far) = pair(rt, net, &mut door, place);
        pass(rt, &mut far, &mut near, "HTTP/1.1 200 OK\r\n");
        assert_silence(rt, staged);
        assert!(rt; far.write(text.as_bytes()) == Ok(text.len()));
        assert_sender(rt, staged, words);
        // a second time within a minute, and the connection's end
        assert!(rt; far.write(text.as_bytes()) == Ok(text.len()));
        drop(near);
        assert!(rt; door.give_back(far, Proto::Hec, 0, 66, BROKEN).is_ok());
        assert_silence(rt, staged);
    }
    // what a peer writes so is no refusal of bridge
    let (mut near, mut far) = pair(rt, net, &mut door, place);
    pass(rt, &mut near, &mut far, "HTTP/1.1 401 No\r\n");
    net.hang_up(near);
    assert!(rt; door.give_back(far, Proto::Hec, 0, 0, Talk::Ended).is_ok());
    assert_silence(rt, staged);
}

// The file of the tokens that the rows have.
fn tokens(rt: &impl Abort, alloc: Global) -> TokenFile {
    let (first, second) = (
        0x1111_1111_2222_3333_4444_5555_5555_5555,
        0xaaaa_aaaa_2222_3333_4444_5555_5555_5555,
    );
    let places = [(first, 3), (second, 5), (second, 7)];
    let places = places.map(|(guid, line)| TokenPlace { guid, line });
    TokenFile {
        name: String::from_str(alloc, "tokens").expect(rt, "memory"),
        places: Vec::from_array(alloc, places).expect(rt, "memory"),
    }
}

// The line in which a token stands is said of a request that is refused for it, where the token is known for sure.
fn lines_of_tokens_are_said(
    rt: &impl Abort,
    alloc: Global,
    staged: &Staged<'_>,
    net: &mut StagedNet<'_, '_>,
    place: &str,
) {
    let mut door = bound(rt, staged, net, place);
    for (pieces, reply, words) in TOKEN_LINES {
        staged.pass(MINUTE);
        let (mut near, mut far) = pair(rt, net, &mut door, place);
        for piece in pieces {
            let mut buf = [0u8; 512];
            assert!(rt; near.write(piece.as_bytes()) == Ok(piece.len()));
            assert!(rt; far.read(&mut buf) == Ok(piece.len()));
        }
        let text = format!(in alloc; "HTTP/1.1 {reply}").expect(rt, "memory");
        assert!(rt; far.write(text.as_bytes()) == Ok(text.len()));
        drop(near);
        let ended = door.give_back(far, Proto::Hec, 0, 0, Talk::Ended);
        assert!(rt; ended.is_ok());
        let line = format!(in alloc; ": a request was refused with {words}");
        assert_sender(rt, staged, line.expect(rt, "memory").as_str());
    }
}

// The number of each connection is said at its first bytes, where that is asked for.
fn connections_are_numbered(
    rt: &impl Abort,
    staged: &Staged<'_>,
    net: &mut StagedNet<'_, '_>,
    place: &str,
) {
    let mut door = bound(rt, staged, net, place);
    let (mut near, mut far) = pair(rt, net, &mut door, place);
    assert_silence(rt, staged);
    pass(rt, &mut near, &mut far, "1 open 0\n");
    let lines = staged.take_lines(rt);
    let [line] = lines.as_slice() else {
        panic!(rt; "one line, not {lines:?}");
    };
    let peer = line.strip_prefix("bridge: connection 5 is of sender 127.0.0.1:");
    assert!(rt;
        peer.is_some_and(|port| port.parse::<u16>().is_ok()),
        "{line}"
    );
    pass(rt, &mut near, &mut far, "2 close 0\n");
    // nor of what a receiver sends
    pass(rt, &mut far, &mut near, "1 rsp 6 200 OK\n");
    assert_silence(rt, staged);
    net.hang_up(near);
    assert!(rt; door.give_back(far, Proto::Relp, 5, 0, Talk::Ended).is_ok());
    assert_silence(rt, staged);
}

// Nothing of all this is said where it is quiet.
fn a_quiet_net_says_nothing(
    rt: &impl Abort,
    staged: &Staged<'_>,
    net: &mut StagedNet<'_, '_>,
    place: &str,
) {
    assert!(rt; net.dial(place).is_err(), "nobody listens");
    let mut doors = net.bind(place, 2).expect(rt, "a free port");
    assert!(rt; net.bind(place, 1).is_err(), "the port is taken");
    // a second door that doesn't begin
    let mut door = doors.pop().expect(rt, "two doors");
    let (mut near, mut far) = pair(rt, net, &mut door, place);
    pass(rt, &mut near, &mut far, "POST / HTTP/1.1\r\n");
    pass(rt, &mut far, &mut near, "HTTP/1.1 401 No\r\n");
    net.hang_up(near);
    assert!(rt; door.give_back(far, Proto::Hec, 0, 66, BROKEN).is_ok());
    for _ in 0..4 {
        net.pause();
        net.report_held_up(place, &REFUSED);
    }
    assert_silence(rt, staged);
    drop(doors);
}

// A sender's side: each by a net of its own, at a port of its own.
fn senders_are_said(rt: &impl Abort, alloc: Global, host: &HostRuntime, staged: &Staged<'_>) {
    let reports = Reports::new();
    let mut net = TcpNet::with_waits(alloc, staged, &reports, waits());
    endings_are_said_once_a_minute(rt, staged, &mut net, &free_place(rt, host));
    let reports = Reports::new();
    let mut net = TcpNet::with_waits(alloc, staged, &reports, waits());
    endings_are_said_by_their_kinds(rt, alloc, staged, &mut net, &free_place(rt, host));
    let reports = Reports::new();
    let mut net = TcpNet::with_waits(alloc, staged, &reports, waits());
    resets_are_said(rt, staged, &mut net, &free_place(rt, host));
    let reports = Reports::new();
    let mut net = TcpNet::with_waits(alloc, staged, &reports, waits());
    waits_in_vain_are_said(rt, staged, &mut net, &free_place(rt, host));
    let reports = Reports::new();
    let mut net = TcpNet::with_waits(alloc, staged, &reports, waits());
    refusals_are_said_by_their_codes(rt, staged, &mut net, &free_place(rt, host));
    let reports = Reports::new();
    let mut net = TcpNet::with_waits(alloc, staged, &reports, waits());
    last_refusals_are_said_with_the_end(rt, alloc, staged, &mut net, &free_place(rt, host));
    let reports = Reports::new().with_tokens(Some(tokens(rt, alloc)));
    let mut net = TcpNet::with_waits(alloc, staged, &reports, waits());
    lines_of_tokens_are_said(rt, alloc, staged, &mut net, &free_place(rt, host));
    let reports = Reports::new().with_verbose(true);
    let mut net = TcpNet::with_waits(alloc, staged, &reports, waits());
    connections_are_numbered(rt, staged, &mut net, &free_place(rt, host));
}

// The receiver's side.
fn receivers_are_said(rt: &impl Abort, alloc: Global, host: &HostRuntime, staged: &Staged<'_>) {
    let reports = Reports::new();
    let mut net = TcpNet::with_waits(alloc, staged, &reports, waits());
    a_receiver_is_reached_again(rt, staged, &mut net, &free_place(rt, host));
    let reports = Reports::new();
    let mut net = TcpNet::with_waits(alloc, staged, &reports, waits());
    a_receiver_closes(rt, staged, &mut net, &free_place(rt, host));
    let reports = Reports::new();
    let mut net = TcpNet::with_waits(alloc, staged, &reports, waits());
    a_receiver_hangs(rt, staged, &mut net, &free_place(rt, host));
    let reports = Reports::new();
    let mut net = TcpNet::with_waits(alloc, staged, &reports, waits());
    an_entry_that_is_held_up_is_said(rt, alloc, staged, &mut net);
}

/// Each with what it keeps in mind of its own.
pub(crate) fn the_net_says_what_befalls_it(rt: &impl Abort, alloc: Global, host: &HostRuntime) {
    let staged = Staged::over(alloc, host);
    let reports = Reports::new();
    let mut net = TcpNet::with_waits(alloc, &staged, &reports, waits());
    a_place_that_is_taken_is_named(rt, &staged, &mut net, &free_place(rt, host));
    a_place_without_a_port_is_named(rt, &staged, &mut net);
    a_monitor_is_said(rt, &staged, &mut net, &free_place(rt, host));
    senders_are_said(rt, alloc, host, &staged);
    receivers_are_said(rt, alloc, host, &staged);
    let quiet = Reports::quiet().with_verbose(true);
    let mut net = TcpNet::with_waits(alloc, &staged, &quiet, waits());
    a_quiet_net_says_nothing(rt, &staged, &mut net, &free_place(rt, host));
}
