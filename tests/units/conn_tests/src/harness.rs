//! One connection over a spool in memory.
ghost use Rattle.std.specs.Prelude.{◌<◌};

use crate::asked::Asked;
use crate::fields::{bytes_of, number_of, numbers_of};
use crate::silent::Silent;
use conn_serve::{Rules, attend};
use desk_access::Access;
use edge_io::{Both, MemLink, MemSink, MemSource, Proto};
use edge_memory::MemDisk;
use event_form::{Attended, Origin};
use hec_ids::Ids;
use hec_tokens::TokenList;
use spool_answers::Numbered;
use spool_desk::{Alone, Desk};
use spool_log::{Opening, Spool, format};
use std::alloc::Global;
use std::process::Abort;

/// The number of the connection.
const CONN: u64 = 7;

/// The tokens, of which only the collector makes use.
const TOKEN: u128 = 0x1111_1111_2222_3333_4444_5555_5555_5555;

const ACK_TOKEN: u128 = 0xaaaa_aaaa_2222_3333_4444_5555_5555_5555;

/// What a connection left.
#[derive(Drop)]
pub(crate) struct Left {
    pub(crate) attended: Attended,
    pub(crate) written: Vec<u8>,
    /// The entries that aren't confirmed, at most 4,096, one after another as `CONN INDEX UNIT`, the letter for the form, the text and
    /// LF.
    pub(crate) entries: Vec<u8>,
    /// How many entries these are.
    pub(crate) count: u64,
    /// How many bytes a read asked for at least, and at most.
    pub(crate) asked: (usize, usize),
}

// A disk with an empty spool of one slot, of `slot SIZE` bytes: 4,096 where the row doesn't say it, and 1,000,000 at most. The calls
// of `disk N` fail, counted from 0, and these.
fn disk_of(rt: &impl Abort, alloc: Global, row: &str, failing: &[u64]) -> MemDisk {
    let slot = number_of(rt, row, "slot", 4096);
    assert!(rt; 4096 <= slot && slot <= 1_000_000, "no such slot");
    let bytes = vec![in alloc; 0; 12_288 + slot as usize].expect(rt, "memory");
    let mut disk = MemDisk::of(bytes, Vec::new(alloc));
    assert!(rt; format(&mut disk, 1, slot).is_ok(), "format");
    let mut calls = numbers_of(rt, alloc, row, "disk");
    calls.extend_from_slice(failing).expect(rt, "memory");
    MemDisk::of(disk.bytes().to_vec(alloc).expect(rt, "memory"), calls)
}

// The desk of a row, over a disk of which these calls fail too. Of the run's ids `ids COUNT` are used up, none where the row doesn't
// say it. None: the device wasn't opened.
fn desk_of(rt: &impl Abort, alloc: Global, row: &str, failing: &[u64]) -> Option<Alone<MemDisk>> {
    let used = u32::try_from(number_of(rt, row, "ids", 0)).expect(rt, "too many ids");
    match Spool::recover(alloc, disk_of(rt, alloc, row, failing), Opening::Raise) {
        Ok(spool) => {
            let ids = Ids::new(alloc, spool.run(), used);
            Some(Alone::new(Desk { spool, ids }))
        }
        Err(_) => None,
    }
}

/// The bytes so many times.
pub(crate) fn repeated(rt: &impl Abort, alloc: Global, bytes: &[u8], times: usize) -> Vec<u8> {
    let mut all = Vec::new(alloc);
    for _ in 0..times {
        all.extend_from_slice(bytes).expect(rt, "memory");
    }
    all
}

// A link that gives the bytes of the row's `in` so many times, at most `step` of them in a read. The reads of `reads N` fail, and the
// writes of `writes N`, counted from 0.
fn link_of(
    rt: &impl Abort,
    alloc: Global,
    row: &str,
    times: usize,
    step: usize,
) -> Both<Asked<MemSource>, MemSink>
    requires { 0 < step }
{
    let input = repeated(rt, alloc, &bytes_of(rt, alloc, row, "in"), times);
    let reads = numbers_of(rt, alloc, row, "reads");
    let writes = numbers_of(rt, alloc, row, "writes");
    Both {
        source: Asked::of(MemSource::of(input, step, reads)),
        sink: MemSink::of(alloc, writes),
    }
}

// The letter for the form of an event: RELP, pairs, JSON, an object, a raw line.
fn letter(origin: Origin) -> char {
    match origin {
        Origin::Relp => 'r',
        Origin::LumberData => 'd',
        Origin::LumberJson => 'j',
        Origin::HecEvent => 'o',
        Origin::HecRaw => 'w',
    }
}

// The entries that aren't confirmed, and how many these are.
fn entries_of(rt: &impl Abort, alloc: Global, desk: &mut Alone<MemDisk>) -> (Vec<u8>, u64) {
    let mut shown = Vec::new(alloc);
    let Ok(pending) = desk.pending(0, 4096) else {
        return (shown, 0);
    };
    for Numbered { entry, .. } in &pending {
        let form = letter(entry.event.origin);
        let head = format!(in alloc; "{} {} {} {form}", entry.conn, entry.index, entry.unit);
        let head = head.expect(rt, "memory");
        shown
            .extend_from_slice(head.as_bytes())
            .expect(rt, "memory");
        shown
            .extend_from_slice(entry.event.text.bytes())
            .expect(rt, "memory");
        shown.push(b'\n').expect(rt, "memory");
    }
    (shown, pending.len() as u64)
}

/// Whether the row says that events which one read brings are stored as one group.
pub(crate) fn is_grouped(rt: &impl Abort, row: &str) -> bool {
    number_of(rt, row, "group", 0) == 1
}

// The rules for a row.
fn rules_of(rt: &impl Abort, proto: Proto, row: &str) -> Rules {
    Rules {
        proto,
        token: Some(TOKEN),
        ack_token: Some(ACK_TOKEN),
        listed: TokenList::none(),
        group: is_grouped(rt, row),
    }
}

// Whether the row says that the sender is silent after each read.
fn is_silent(rt: &impl Abort, row: &str) -> bool {
    number_of(rt, row, "silent", 0) == 1
}

/// Serves a connection whose bytes are those of the row, and returns how many bytes of memory it claimed last, and at most.
pub(crate) fn claims(rt: &impl Abort, alloc: Global, proto: Proto, row: &str) -> (u64, u64) {
    let mut desk = desk_of(rt, alloc, row, &[]).expect(rt, "not opened");
    let input = bytes_of(rt, alloc, row, "in");
    let source = MemSource::of(input, usize::MAX, Vec::new(alloc));
    let mut link = MemLink::of(source, MemSink::of(alloc, Vec::new(alloc)));
    let rules = rules_of(rt, proto, row);
    if is_silent(rt, row) {
        let mut silent = Silent { link };
        let _ = attend(alloc, &mut silent, &rules, &mut desk, CONN);
        return (silent.link.claimed(), silent.link.most_claimed());
    }
    let _ = attend(alloc, &mut link, &rules, &mut desk, CONN);
    (link.claimed(), link.most_claimed())
}

/// Serves a connection whose bytes are those of the row, so many times, at most `step` of them in a read. These calls of the disk fail,
/// beside the row's. None: the device wasn't opened.
pub(crate) fn serve(
    rt: &impl Abort,
    alloc: Global,
    proto: Proto,
    row: &str,
    failing: &[u64],
    times: usize,
    step: usize,
) -> Option<Left>
    requires { 0 < step }
{
    let mut desk = desk_of(rt, alloc, row, failing)?;
    let mut link = link_of(rt, alloc, row, times, step);
    let rules = rules_of(rt, proto, row);
    let attended = attend(alloc, &mut link, &rules, &mut desk, CONN);
    let written = link.sink.taken().to_vec(alloc).expect(rt, "memory");
    let (entries, count) = entries_of(rt, alloc, &mut desk);
    Some(Left {
        attended,
        written,
        entries,
        count,
        asked: (link.source.fewest, link.source.most),
    })
}

/// Refuses bytes that aren't those of the row's field, and shows the first 200 of them.
pub(crate) fn check_bytes(rt: &impl Abort, alloc: Global, row: &str, field: &str, bytes: &[u8]) {
    let want = bytes_of(rt, alloc, row, field);
    let start = &bytes[..bytes.len().min(200)];
    assert!(rt;
        bytes == want.as_slice(),
        "another {field}: {start:?} in {row}"
    );
}
