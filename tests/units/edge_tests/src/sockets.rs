//! Links, doors and a net over the loopback's sockets.
use edge_io::{Door, Net, NetFault, Pause, Proto, ReadFault, Sink, Source, Stopped, write_whole};
use edge_net::{Reports, TcpDoor, TcpLink, TcpNet, Waits};
use event_form::Talk;
use std::net::TcpListener;
use std::process::Abort;
use std::rt::Clock;
use std::thread::{self, Threads};
use std::time::{Duration, Instant};

// A port of the loopback at which nobody listens.
pub(crate) fn free_place(rt: &impl Abort, host: &HostRuntime) -> String {
    let listener = TcpListener::bind(host, "127.0.0.1:0").expect(rt, "a free port");
    let place = listener.local_addr().expect(rt, "an address");
    format!(in host.alloc(); "{place}").expect(rt, "memory")
}

// A link that is dialed at the place, and the link that the door accepts for it.
pub(crate) fn pair<'a>(
    rt: &impl Abort,
    net: &mut TcpNet<'a, HostRuntime>,
    door: &mut TcpDoor<'a, HostRuntime>,
    place: &str,
) -> (TcpLink<'a, HostRuntime>, TcpLink<'a, HostRuntime>) {
    let near = net.dial(place).expect(rt, "a port that listens");
    let far = door.accept(0).expect(rt, "a connection waits");
    (near, far.expect(rt, "no door is shut"))
}

// A door that is bound at the place.
pub(crate) fn bound<'a>(
    rt: &impl Abort,
    net: &mut TcpNet<'a, HostRuntime>,
    place: &str,
) -> TcpDoor<'a, HostRuntime> {
    let mut doors = net.bind(place, 1).expect(rt, "a free port");
    doors.pop().expect(rt, "one door")
}

// Sends a piece from the one link to the other.
fn pass(
    rt: &impl Abort,
    from: &mut TcpLink<'_, HostRuntime>,
    to: &mut TcpLink<'_, HostRuntime>,
    piece: &[u8],
) {
    let mut buf = [0u8; 16];
    assert!(rt; write_whole(from, piece).is_ok());
    let n = to.read(&mut buf).expect(rt, "the piece comes");
    assert!(rt; buf.starts_with(piece) && n == piece.len());
}

fn links_are_dialed_accepted_read_and_written(
    rt: &impl Abort,
    net: &mut TcpNet<'_, HostRuntime>,
    place: &str,
) {
    let doors = net.bind(place, 2).expect(rt, "a free port");
    assert!(rt; doors.len() == 2);
    // Each door is dropped before the next one is used, which accepts all the same.
    for mut door in doors {
        let (mut near, mut far) = pair(rt, net, &mut door, place);
        pass(rt, &mut near, &mut far, b"question");
        pass(rt, &mut far, &mut near, b"answer");
        net.hang_up(near);
        assert!(rt; far.read(&mut [0u8; 16]) == Ok(0), "the peer has hung up");
        assert!(rt; door.give_back(far, Proto::Relp, 0, 0, Talk::Ended).is_ok());
    }
}

fn a_port_that_is_taken_is_a_fault(
    rt: &impl Abort,
    net: &mut TcpNet<'_, HostRuntime>,
    place: &str,
) {
    let door = bound(rt, net, place);
    let taken = net.bind(place, 1);
    assert!(rt; matches!(taken, Err(NetFault::Fault)), "the port is taken");
    drop(door);
    assert!(rt; net.bind(place, 1).is_ok(), "the port is free again");
}

fn a_place_that_nobody_serves_is_a_fault(
    rt: &impl Abort,
    net: &mut TcpNet<'_, HostRuntime>,
    free: &str,
) {
    for place in [free, "", "127.0.0.1", "127.0.0.1:port"] {
        let dialed = net.dial(place);
        assert!(rt; matches!(dialed, Err(NetFault::Fault)), "{place}");
    }
    let bound = net.bind("127.0.0.1", 1);
    assert!(rt; matches!(bound, Err(NetFault::Fault)), "no port");
}

fn a_peer_that_resets_is_a_fault(rt: &impl Abort, net: &mut TcpNet<'_, HostRuntime>, place: &str) {
    let mut door = bound(rt, net, place);
    let (mut near, mut far) = pair(rt, net, &mut door, place);
    assert!(rt; far.write(b"unread") == Ok(6));
    assert!(rt; near.read(&mut [0u8; 1]) == Ok(1));
    // Closed with bytes unread, it resets the connection.
    net.hang_up(near);
    assert!(rt; far.read(&mut [0u8; 16]) == Err(ReadFault));
    assert!(rt; far.write(b"more").is_err());
    assert!(rt; door.give_back(far, Proto::Relp, 0, 0, Talk::Ended).is_ok());
}

// A peer that is silent and stays is given up.
fn a_silent_peer_is_given_up<'a>(
    rt: &(impl Abort + Clock),
    net: &mut TcpNet<'a, HostRuntime>,
    door: &mut TcpDoor<'a, HostRuntime>,
    place: &str,
) {
    let (mut silent, unread) = pair(rt, net, door, place);
    let start = Instant::now(rt).expect(rt, "a clock");
    assert!(rt;
        door.give_back(unread, Proto::Hec, 0, 66, Talk::NoMemory)
            .is_ok()
    );
    let waited = start.elapsed(rt).expect(rt, "a clock");
    assert!(rt; waited < Duration::from_secs(20));
    assert!(rt; silent.read(&mut [0u8; 16]) == Ok(0));
}

// Sends the whole piece before it reads: whether that went, whether "answer" comes then, and what comes after it.
fn sends_then_hears(
    mut link: TcpLink<'_, HostRuntime>,
    piece: &[u8],
) -> (bool, bool, Result<usize, ReadFault>) {
    let mut buf = [0u8; 16];
    let sent = write_whole(&mut link, piece).is_ok();
    let heard = link.read(&mut buf) == Ok(6) && buf.starts_with(b"answer");
    (sent, heard, link.read(&mut buf))
}

// Whether an answer goes over the link, of which nothing is read, and the link is given back after it.
fn answers_and_gives_back<'a>(
    mut door: TcpDoor<'a, HostRuntime>,
    mut link: TcpLink<'a, HostRuntime>,
) -> bool {
    let answered = write_whole(&mut link, b"answer").is_ok();
    let given = door
        .give_back(link, Proto::Hec, 0, 66, Talk::NoMemory)
        .is_ok();
    answered && given
}

fn a_link_given_back_unread_ends_after_its_answer(
    rt: &(impl Abort + AllocGlobal + Clock + Threads),
    net: &mut TcpNet<'_, HostRuntime>,
    place: &str,
) {
    let mut door = bound(rt, net, place);
    a_silent_peer_is_given_up(rt, net, &mut door, place);
    let (near, far) = pair(rt, net, &mut door, place);
    let piece = vec![in rt.alloc(); b'x'; 4_194_304].expect(rt, "memory");
    let (heard, answered) = thread::join(
        rt,
        move || sends_then_hears(near, &piece),
        move || answers_and_gives_back(door, far),
    );
    assert!(rt; answered && heard == (true, true, Ok(0)));
}

fn a_write_ends_when_the_peer_that_stopped_reading_goes(
    rt: &(impl Abort + AllocGlobal + Clock + Sync + Threads),
    net: &mut TcpNet<'_, HostRuntime>,
    place: &str,
) {
    let mut door = bound(rt, net, place);
    let (near, mut far) = pair(rt, net, &mut door, place);
    let piece = vec![in rt.alloc(); b'x'; 67_108_864].expect(rt, "memory");
    let (wrote, ()) = thread::join(
        rt,
        move || write_whole(&mut far, &piece),
        || {
            thread::sleep(rt, Duration::from_millis(300));
            drop(near);
        },
    );
    assert!(rt;
        matches!(wrote, Err(Stopped { sent }) if 0 < sent && sent < 67_108_864),
        "{wrote:?}"
    );
}

// Whether an answer goes over the link, which is dropped a while later. Bytes are unread then, so that resets the connection.
fn answers_and_breaks_off(rt: &impl Clock, mut link: TcpLink<'_, HostRuntime>) -> bool {
    let answered = write_whole(&mut link, b"answer").is_ok();
    thread::sleep(rt, Duration::from_millis(300));
    answered
}

fn a_receiver_that_breaks_off_is_heard(
    rt: &(impl Abort + AllocGlobal + Clock + Sync + Threads),
    net: &mut TcpNet<'_, HostRuntime>,
    place: &str,
) {
    let mut door = bound(rt, net, place);
    let (near, far) = pair(rt, net, &mut door, place);
    let piece = vec![in rt.alloc(); b'x'; 67_108_864].expect(rt, "memory");
    let (heard, answered) = thread::join(
        rt,
        move || sends_then_hears(near, &piece),
        move || answers_and_breaks_off(rt, far),
    );
    let is_heard = matches!(heard, (true, true, Ok(0) | Err(ReadFault)));
    assert!(rt; answered && is_heard, "{heard:?}");
}

fn a_pause_takes_a_while(rt: &(impl Abort + Clock), net: &mut TcpNet<'_, HostRuntime>) {
    let start = Instant::now(rt).expect(rt, "a clock");
    net.pause();
    let waited = start.elapsed(rt).expect(rt, "a clock");
    assert!(rt; Duration::from_millis(500) < waited);
    let start = Instant::now(rt).expect(rt, "a clock");
    net.wait_briefly();
    let waited = start.elapsed(rt).expect(rt, "a clock");
    assert!(rt; Duration::from_millis(25) < waited);
}

/// Each is done at a port of its own, so that none meets what another one left there.
pub(crate) fn sockets_are_links(
    rt: &(impl Abort + AllocGlobal + Clock + Sync + Threads),
    host: &HostRuntime,
) {
    // The doors of a place don't wait long for each other.
    let waits = Waits {
        roll: Duration::from_millis(20),
        ..Waits::standard()
    };
    let reports = Reports::quiet();
    let mut net = TcpNet::with_waits(rt.alloc(), host, &reports, waits);
    links_are_dialed_accepted_read_and_written(rt, &mut net, &free_place(rt, host));
    a_port_that_is_taken_is_a_fault(rt, &mut net, &free_place(rt, host));
    a_place_that_nobody_serves_is_a_fault(rt, &mut net, &free_place(rt, host));
    a_peer_that_resets_is_a_fault(rt, &mut net, &free_place(rt, host));
    a_link_given_back_unread_ends_after_its_answer(rt, &mut net, &free_place(rt, host));
    a_write_ends_when_the_peer_that_stopped_reading_goes(rt, &mut net, &free_place(rt, host));
    a_receiver_that_breaks_off_is_heard(rt, &mut net, &free_place(rt, host));
    a_pause_takes_a_while(rt, &mut net);
}
