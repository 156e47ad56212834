//! The replay and the drain of a load by `attend` and `forward` alone.
use crate::forwarding::harness::{blank, desk, sent};
use conn_serve::{Rules, attend};
use desk_access::Access;
use edge_io::{Both, MemSink, MemSource, Proto};
use edge_memory::MemDisk;
use event_form::Talk;
use forward_core::Sent;
use hec_tokens::TokenList;
use load_run::{Loaded, load};
use spool_desk::Alone;
use std::alloc::Global;
use std::process::Abort;

/// What a sender writes of two events after 1.
const STREAM: &[u8] = b"1 open 59 relp_version=0\n\
    relp_software=bridge,1,local\n\
    commands=syslog\n\
    2 syslog 17 load 0 1103527590\n\
    3 syslog 16 load 1 377401575\n\
    4 close 0\n";

/// What its peer answers to it in the drain.
const PEER: &[u8] = b"1 rsp 6 200 OK\n2 rsp 6 200 OK\n3 rsp 6 200 OK\n";

// How many events were taken of the stream, and how many bytes were written.
fn replayed(rt: &impl Abort, alloc: Global, access: &mut Alone<MemDisk>) -> (u64, u64) {
    let stream = STREAM.to_vec(alloc).expect(rt, "memory");
    let mut link = Both {
        source: MemSource::of(stream, 7, Vec::new(alloc)),
        sink: MemSink::of(alloc, Vec::new(alloc)),
    };
    let rules = Rules {
        proto: Proto::Relp,
        token: None,
        ack_token: None,
        listed: TokenList::none(),
        group: false,
    };
    let attended = attend(alloc, &mut link, &rules, access, 1 << 32);
    assert!(rt; attended.talk == Talk::Closed);
    (attended.taken, link.sink.taken().len() as u64)
}

// Sends what the desk holds to the peer.
fn drain(rt: &impl Abort, alloc: Global, access: &mut Alone<MemDisk>) {
    let peer = PEER.to_vec(alloc).expect(rt, "memory");
    let mut source = MemSource::of(peer, 5, Vec::new(alloc));
    let mut sink = MemSink::of(alloc, Vec::new(alloc));
    let (sent, _) = sent(alloc, Proto::Relp, 1, access, &mut source, &mut sink);
    assert!(rt; sent == Sent::Drained && sink.taken() == STREAM);
}

/// The two apart find the numbers of the load of two events by RELP after 1, and the session writes the stream that was replayed.
pub(crate) fn check_apart(rt: &impl Abort, alloc: Global) {
    let disk = blank(rt, alloc, 20_480, 2, 4096);
    let mut access = desk(alloc, disk).expect(rt, "not opened");
    let (events, bytes_out) = replayed(rt, alloc, &mut access);
    drain(rt, alloc, &mut access);
    let standing = access.standing();
    let found = Loaded {
        events,
        bytes_in: STREAM.len() as u64,
        bytes_out,
        confirmed: standing.cursor,
        left: standing.end.wrapping_sub(standing.cursor),
    };
    let wanted = load(alloc, Proto::Relp, 1, 2).ok().expect(rt, "a load");
    assert!(rt; found == wanted);
}
