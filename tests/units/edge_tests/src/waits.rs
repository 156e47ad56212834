//! How long links wait for their peers.
use crate::sockets::{bound, free_place, pair};
use edge_io::{Door, Proto, ReadFault, Sink, Source, write_whole};
use edge_net::{LinkSettings, Reports, TcpDoor, TcpLink, TcpNet, Waits};
use event_form::Talk;
use std::io::Write;
use std::net::TcpStream;
use std::process::Abort;
use std::rt::Clock;
use std::thread::{self, Threads};
use std::time::{Duration, Instant};

// That the link waits for so many seconds, and what is written goes out at once.
fn assert_waits(rt: &impl Abort, link: &TcpLink<'_, HostRuntime>, seconds: u64) {
    let wait = Some(Duration::from_secs(seconds));
    let wanted = LinkSettings {
        is_prompt: true,
        read_wait: wait,
        write_wait: wait,
    };
    let settings = link.settings().expect(rt, "an open socket");
    assert!(rt; settings == wanted, "other settings");
}

// The links of the program's net wait for 600 seconds where they were accepted, and for 90 where they were dialed.
fn links_wait_as_those_of_the_program(rt: &(impl Abort + AllocGlobal), host: &HostRuntime) {
    let reports = Reports::quiet();
    let mut net = TcpNet::new(rt.alloc(), host, &reports);
    let place = free_place(rt, host);
    let mut door = bound(rt, &mut net, &place);
    let (near, far) = pair(rt, &mut net, &mut door, &place);
    assert_waits(rt, &near, 90);
    assert_waits(rt, &far, 600);
}

// Where the words say for how long a sender may be silent, accepted links wait as long, and dialed ones as before.
fn accepted_links_wait_as_the_words_say(rt: &(impl Abort + AllocGlobal), host: &HostRuntime) {
    let reports = Reports::quiet();
    let waits = Waits::standard().with_accepted(7);
    let mut net = TcpNet::with_waits(rt.alloc(), host, &reports, waits);
    let place = free_place(rt, host);
    let mut door = bound(rt, &mut net, &place);
    let (near, far) = pair(rt, &mut net, &mut door, &place);
    assert_waits(rt, &near, 90);
    assert_waits(rt, &far, 7);
}

// Short waits, so that a peer that is silent is given up soon.
fn short_waits() -> Waits {
    Waits {
        accepted: Duration::from_millis(200),
        dialed: Duration::from_millis(300),
        roll: Duration::from_millis(20),
    }
}

// A read of each of the two links, to which nothing is sent, is a fault after its wait.
fn a_silent_peer_is_a_fault(
    rt: &(impl Abort + Clock),
    net: &mut TcpNet<'_, HostRuntime>,
    place: &str,
) {
    let mut door = bound(rt, net, place);
    let (mut near, mut far) = pair(rt, net, &mut door, place);
    let start = Instant::now(rt).expect(rt, "a clock");
    assert!(rt; far.read(&mut [0u8; 16]) == Err(ReadFault));
    let waited = start.elapsed(rt).expect(rt, "a clock");
    assert!(rt; Duration::from_millis(150) < waited && waited < Duration::from_secs(60));
    assert!(rt; near.read(&mut [0u8; 16]) == Err(ReadFault));
    // The link is as it was: what comes later is read.
    assert!(rt; near.write(b"late") == Ok(4));
    assert!(rt; far.read(&mut [0u8; 16]) == Ok(4));
}

// Writes pieces of 64 KiB until one stops, 1,024 at most: how many went whole.
fn pieces_until_one_stops(link: &mut TcpLink<'_, HostRuntime>) -> u32 {
    let piece = [b'x'; 65_536];
    for count in 0..1_024 {
        if write_whole(link, &piece).is_err() {
            return count;
        }
    }
    1_024
}

// Writes to a peer that reads nothing end where the system takes no more.
fn a_peer_that_reads_nothing_is_a_fault(
    rt: &impl Abort,
    net: &mut TcpNet<'_, HostRuntime>,
    place: &str,
) {
    let mut door = bound(rt, net, place);
    let (mut near, mut far) = pair(rt, net, &mut door, place);
    let (by_near, by_far) = (
        pieces_until_one_stops(&mut near),
        pieces_until_one_stops(&mut far),
    );
    assert!(rt; 0 < by_near && by_near < 1_024, "{by_near}");
    assert!(rt; 0 < by_far && by_far < 1_024, "{by_far}");
}

// Sends a byte each 15 milliseconds until a write fails, 2,000 at most: how many were sent.
fn sends_bytes_slowly(rt: &impl Clock, mut stream: TcpStream) -> u32 {
    for sent in 0..2_000 {
        if stream.write(b"x").is_err() {
            return sent;
        }
        thread::sleep(rt, Duration::from_millis(15));
    }
    2_000
}

// A peer that never falls silent is given up in two seconds, while it could go on for 30.
fn a_peer_that_sends_on_is_given_up(
    rt: &(impl Abort + Clock + Sync + Threads),
    host: &HostRuntime,
    net: &mut TcpNet<'_, HostRuntime>,
    place: &str,
) {
    let mut door = bound(rt, net, place);
    let near = TcpStream::connect(host, place).expect(rt, "it listens");
    let far = door.accept(0).expect(rt, "a connection waits");
    let far = far.expect(rt, "no door is shut");
    let (sent, waited) = thread::join(
        rt,
        move || sends_bytes_slowly(rt, near),
        move || gives_back(rt, door, far),
    );
    let waited = waited.expect(rt, "the link is given back, and there is a clock");
    assert!(rt;
        Duration::from_millis(1_500) < waited && waited < Duration::from_secs(15),
        "{waited:?}"
    );
    assert!(rt; 0 < sent && sent < 1_000, "{sent}");
}

// Gives the link back: how long that takes.
fn gives_back<'a>(
    rt: &impl Clock,
    mut door: TcpDoor<'a, HostRuntime>,
    link: TcpLink<'a, HostRuntime>,
) -> Option<Duration> {
    let start = Instant::now(rt).ok()?;
    door.give_back(link, Proto::Relp, 0, 0, Talk::Ended).ok()?;
    start.elapsed(rt).ok()
}

/// Each is done at a port of its own.
pub(crate) fn links_wait_for_a_while(
    rt: &(impl Abort + AllocGlobal + Clock + Sync + Threads),
    host: &HostRuntime,
) {
    links_wait_as_those_of_the_program(rt, host);
    accepted_links_wait_as_the_words_say(rt, host);
    let reports = Reports::quiet();
    let mut net = TcpNet::with_waits(rt.alloc(), host, &reports, short_waits());
    a_silent_peer_is_a_fault(rt, &mut net, &free_place(rt, host));
    a_peer_that_reads_nothing_is_a_fault(rt, &mut net, &free_place(rt, host));
    a_peer_that_sends_on_is_given_up(rt, host, &mut net, &free_place(rt, host));
}
