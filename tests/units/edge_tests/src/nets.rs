//! Doors and nets in memory.
ghost use Rattle.edge_io.specs.MemLink.{IsUnused};
ghost use Rattle.edge_io.specs.MemDoor.{IsUntouched};

use edge_io::{
    Door, Finished, HeldUp, Hung, MemDoor, MemLink, MemNet, MemPlace, MemScript, MemSink,
    MemSource, Monitor, Net, NetFault, Pause, Proto, Sink, Source,
};
use event_form::Talk;
use std::alloc::Global;
use std::process::Abort;

// A link that gives these bytes and was not used yet.
fn link(rt: &impl Abort, alloc: Global, bytes: &str) -> MemLink
    ensures { IsUnused result }
{
    let bytes = bytes.as_bytes().to_vec(alloc).expect(rt, "memory");
    let source = MemSource::of(bytes, 4, Vec::new(alloc));
    MemLink::of(source, MemSink::of(alloc, Vec::new(alloc)))
}

// A door at which two links wait, and whose second accept fails.
fn door(rt: &impl Abort, alloc: Global) -> MemDoor
    ensures { IsUntouched result }
{
    let mut links = Vec::new(alloc);
    links
        .push(link(rt, alloc, "first link"))
        .expect(rt, "memory");
    links.push(link(rt, alloc, "second")).expect(rt, "memory");
    MemDoor::of(alloc, links, [1].to_vec(alloc).expect(rt, "memory"))
}

// The next link of the door, at which one waits.
fn next(rt: &impl Abort, door: &mut MemDoor) -> MemLink {
    let link = door.accept(0).expect(rt, "this accept doesn't fail");
    link.expect(rt, "a link waits")
}

// Whether a talk is as a door is to tell it: protocol, number, bytes read and written, status, bytes left.
fn is_talk(talk: &Finished, want: (Proto, u64, &str, &str, u8, u64)) -> bool {
    let (proto, conn, read, written, status, left) = want;
    talk.proto == proto
        && talk.conn == conn
        && talk.read.as_slice() == read.as_bytes()
        && talk.written.as_slice() == written.as_bytes()
        && talk.status == status
        && talk.left == left
}

// Accepts both links of the door, and gives them back in the other order, the first one after a read and a write.
fn serve_two(rt: &impl Abort, door: &mut MemDoor) {
    let mut first = next(rt, door);
    assert!(rt; door.accept(0).is_err(), "the second accept fails");
    let second = next(rt, door);
    assert!(rt; matches!(door.accept(0), Ok(None)), "no link is left");
    let counts = [first.read(&mut [0u8; 8]).ok(), first.write(b"answer").ok()];
    assert!(rt; counts == [Some(4), Some(6)]);
    let given = door.give_back(second, Proto::Hec, 8, 0, Talk::Ended);
    given.expect(rt, "memory");
    let given = door.give_back(first, Proto::Relp, 7, 66, Talk::NoMemory);
    given.expect(rt, "memory");
}

pub(crate) fn a_door_accepts_in_order_and_tells_its_links(rt: &impl Abort, alloc: Global) {
    let mut door = door(rt, alloc);
    serve_two(rt, &mut door);
    let [second, first] = door.talks() else {
        panic!(rt; "two links were given back");
    };
    assert!(rt; is_talk(second, (Proto::Hec, 8, "", "", 0, 6)));
    assert!(rt; is_talk(first, (Proto::Relp, 7, "firs", "answer", 66, 6)));
}

// Two doors at the place `r`.
fn places(rt: &impl Abort, alloc: Global) -> Vec<MemPlace> {
    let mut doors = Vec::new(alloc);
    doors.push(door(rt, alloc)).expect(rt, "memory");
    doors.push(door(rt, alloc)).expect(rt, "memory");
    let place = String::from_str(alloc, "r").expect(rt, "memory");
    Vec::from_array(alloc, [MemPlace { place, doors }]).expect(rt, "memory")
}

pub(crate) fn a_net_binds_the_doors_of_a_place(rt: &impl Abort, alloc: Global) {
    let failing = [2].to_vec(alloc).expect(rt, "memory");
    let mut net = MemNet::of(alloc, places(rt, alloc), Vec::new(alloc), failing);
    for (doors, is_bound) in [
        (1, true),
        // where one is left
        (2, false),
        // at the call that fails
        (1, false),
        (1, true),
        (0, true),
    ] {
        let is_right = match net.bind("r", doors) {
            Ok(made) => is_bound && made.len() == doors as usize,
            Err(fault) => !is_bound && fault == NetFault::Fault,
        };
        assert!(rt; is_right, "{doors} doors, {is_bound}");
    }
    assert!(rt; matches!(net.dial("r"), Err(NetFault::Fault)), "no script");
}

// Calls of `bind`, one after another, and what a net with two doors at `r` tells after each: the doors that were bound.
const BINDS: [(&str, u32, &[(&str, u32)]); 4] = [
    ("r", 1, &[("r", 1)]),
    // where one is left
    ("r", 2, &[("r", 1)]),
    ("s", 0, &[("r", 1), ("s", 0)]),
    ("r", 1, &[("r", 1), ("s", 0), ("r", 1)]),
];

// Whether the net tells that these doors were bound: their places, and how many they are.
fn are_told(net: &MemNet, wants: &[(&str, u32)]) -> bool {
    let bound = net.bound();
    for (one, (place, doors)) in bound.iter().zip(wants) {
        if one.place.as_str() != *place || one.doors != *doors {
            return false;
        }
    }
    bound.len() == wants.len()
}

pub(crate) fn a_net_tells_which_doors_it_bound(rt: &impl Abort, alloc: Global) {
    let scripts = scripts(rt, alloc);
    let mut net = MemNet::of(alloc, places(rt, alloc), scripts, Vec::new(alloc));
    for (place, doors, wants) in BINDS {
        let _ = net.bind(place, doors);
        assert!(rt; are_told(&net, wants), "{doors} doors at {place}");
        // a dial leaves it
        let link = net.dial("d").expect(rt, "the script's place");
        assert!(rt;
            are_told(&net, wants),
            "{doors} doors at {place}, and a dial"
        );
        net.hang_up(link);
    }
}

pub(crate) fn a_net_gives_monitors_whom_nobody_asks(rt: &impl Abort, alloc: Global) {
    let failing = [1].to_vec(alloc).expect(rt, "memory");
    let mut net = MemNet::of(alloc, Vec::new(alloc), Vec::new(alloc), failing);
    for is_given in [true, false, true] {
        let is_right = match net.monitor("m") {
            Ok(mut monitor) => is_given && !monitor.is_asked(),
            Err(fault) => !is_given && fault == NetFault::Fault,
        };
        assert!(rt; is_right, "{is_given}");
    }
    assert!(rt; net.bound().is_empty());
}

// A script for the place `d`, whose second write fails.
fn scripts(rt: &impl Abort, alloc: Global) -> Vec<MemScript> {
    let script = MemScript {
        place: String::from_str(alloc, "d").expect(rt, "memory"),
        bytes: b"1 rsp 6 200 OK\n".to_vec(alloc).expect(rt, "memory"),
        reads: Vec::new(alloc),
        writes: [1].to_vec(alloc).expect(rt, "memory"),
    };
    Vec::from_array(alloc, [script]).expect(rt, "memory")
}

// Whether a link is as a net is to tell it: bytes read and written, bytes left.
fn is_hung_up(hung: &Hung, want: (&str, &str, u64)) -> bool {
    let (read, written, left) = want;
    hung.place.as_str() == "d"
        && hung.read.as_slice() == read.as_bytes()
        && hung.written.as_slice() == written.as_bytes()
        && hung.left == left
}

// Dials twice, and hangs up both links, the first one after a read and two writes.
fn dial_twice(rt: &impl Abort, net: &mut MemNet) {
    let mut link = net.dial("d").expect(rt, "the script's place");
    let again = net.dial("d").expect(rt, "the same again");
    let counts = [
        link.write(b"1 open 0\n").ok(),
        // the second write fails
        link.write(b"lost").ok(),
        link.read(&mut [0u8; 2]).ok(),
    ];
    assert!(rt; counts == [Some(9), None, Some(2)]);
    net.pause();
    net.wait_briefly();
    let held_up = HeldUp {
        number: 0,
        proto: Proto::Relp,
        len: None,
        code: None,
    };
    net.report_held_up("d", &held_up);
    net.hang_up(link);
    net.hang_up(again);
}

pub(crate) fn a_net_dials_by_a_script_and_tells_what_it_hung_up(rt: &impl Abort, alloc: Global) {
    let scripts = scripts(rt, alloc);
    let mut net = MemNet::of(alloc, Vec::new(alloc), scripts, Vec::new(alloc));
    dial_twice(rt, &mut net);
    let [link, again] = net.hung() else {
        panic!(rt; "two links were hung up");
    };
    assert!(rt; is_hung_up(link, ("1 ", "1 open 0\n", 13)));
    assert!(rt; is_hung_up(again, ("", "", 15)));
}
