//! One session over a spool in memory.
ghost use Rattle.std.specs.Prelude.{◌≡◌, ◌<◌, ◌≤◌, ◌^◌};
ghost use Rattle.event_form.specs.Entry.{IsEntry};

use crate::forwarding::ends::end_text;
use crate::forwarding::fields::{number, numbers, said};
use desk_access::Access;
use edge_io::{Both, MemSink, MemSource, Object, Pause, Proto};
use edge_memory::MemDisk;
use event_form::{Blob, Entry, Event, Origin};
use forward_core::{Outward, Sent, forward};
use hec_ids::Ids;
use spool_desk::{Alone, Desk};
use spool_log::{Opening, Spool, format};
use std::alloc::Global;
use std::process::Abort;

/// What a session left.
#[derive(Drop)]
pub(crate) struct Left {
    /// How it ended, as it is printed.
    pub(crate) ends: String,
    pub(crate) written: Vec<u8>,
    /// The numbers of the entries that aren't known as confirmed.
    pub(crate) numbers: Vec<u64>,
    /// How many pauses were made.
    pub(crate) pauses: u32,
}

// A pause that doesn't wait, but counts.
#[derive(Drop)]
struct Counter {
    pauses: u32,
}

impl Object for Counter {
    ghost same = { λ _ _. Unit {0} };

    ghost same_refl = { λ x. tt };

    ghost same_trans = { λ x y z p q. tt };
}

impl Pause for Counter {
    ghost pause_apart = { λ _ _. Unit {0} };

    fn pause(&mut self) {
        self.pauses = self.pauses.saturating_add(1);
    }

    ghost pause_refl = { λ x. tt };

    ghost pause_trans = { λ x y z p q. tt };
}

// The entry with the text `hello` that has this index.
fn entry(rt: &impl Abort, alloc: Global, index: u64) -> Entry
    ensures { IsEntry result }
{
    let text = Vec::from_slice(alloc, b"hello").expect(rt, "memory");
    Entry {
        conn: 1,
        index,
        unit: 2,
        event: Event {
            origin: Origin::Relp,
            text: Blob::of(text),
        },
    }
}

// Takes the entry with this index into the spool.
fn take(rt: &impl Abort, alloc: Global, spool: &mut Spool<MemDisk>, index: u64) {
    let entries = [entry(rt, alloc, index)];
    assert!(rt; spool.take(&entries).is_ok());
}

/// A disk with a new spool of so many slots of a size.
pub(crate) fn blank(rt: &impl Abort, alloc: Global, bytes: u64, slots: u32, size: u64) -> MemDisk
    requires slots { (1 ≤ slots) × (slots ≤ 1024) }
    requires size { (4096 ≤ size) × (size ≤ 2 ^ 30) }
{
    let mut disk = MemDisk::plain(alloc, bytes).expect(rt, "memory");
    assert!(rt; format(&mut disk, slots, size).is_ok());
    disk
}

/// The bytes of a device whose spool has so many entries as the row says by `count N`.
pub(crate) fn filled(rt: &impl Abort, alloc: Global, row: &str) -> Vec<u8> {
    let disk = blank(rt, alloc, 77_824, 1, 65_536);
    let Ok(mut spool) = Spool::recover(alloc, disk, Opening::Raise) else {
        panic!(rt; "recover");
    };
    for index in 0..number(said(row, "count", "")) {
        take(rt, alloc, &mut spool, u64::from(index));
    }
    let disk = spool.into_disk();
    disk.bytes().to_vec(alloc).expect(rt, "memory")
}

/// The desk over the spool of a disk. None: it wasn't opened.
pub(crate) fn desk(alloc: Global, disk: MemDisk) -> Option<Alone<MemDisk>> {
    let spool = Spool::recover(alloc, disk, Opening::Raise).ok()?;
    let ids = Ids::new(alloc, spool.run(), 0);
    Some(Alone::new(Desk { spool, ids }))
}

/// Forwards to a peer with the token and the channel 0, and answers how that ended and how many pauses were made. A query may be
/// asked so often, and once if `polls` is 0.
pub(crate) fn sent(
    alloc: Global,
    proto: Proto,
    polls: u32,
    access: &mut Alone<MemDisk>,
    source: &mut MemSource,
    sink: &mut MemSink,
) -> (Sent, u32) {
    let outward = Outward {
        proto,
        token: 0,
        channel: 0,
        polls: polls.max(1),
    };
    let mut link = Both { source, sink };
    let mut rest = Counter { pauses: 0 };
    let sent = forward(alloc, &mut link, &outward, None, access, &mut rest);
    (sent, rest.pauses)
}

// The numbers of the entries that aren't known as confirmed. Of the calls of the disk one may fail, so it is asked again.
fn waiting(rt: &impl Abort, alloc: Global, access: &mut Alone<MemDisk>) -> Vec<u64> {
    let mut numbers = Vec::new(alloc);
    for _ in 0..2 {
        let Ok(pending) = access.pending(0, 4096) else {
            continue;
        };
        for one in &pending {
            numbers.push(one.number).expect(rt, "memory");
        }
        return numbers;
    }
    panic!(rt; "pending")
}

/// Forwards what a disk's spool holds to a peer that sends these bytes, of which a read brings at most `step`. The row says by `polls N`
/// how often a query may be asked, and by `reads N` and `writes N` which of these calls fail. None: the spool wasn't opened.
pub(crate) fn session(
    rt: &impl Abort,
    alloc: Global,
    proto: Proto,
    row: &str,
    disk: MemDisk,
    sends: Vec<u8>,
    step: usize,
) -> Option<Left>
    requires some { 0 < step }
{
    let mut access = desk(alloc, disk)?;
    let mut source = MemSource::of(sends, step, numbers(rt, alloc, row, "reads", ""));
    let mut sink = MemSink::of(alloc, numbers(rt, alloc, row, "writes", ""));
    let polls = number(said(row, "polls", ""));
    let (sent, pauses) = sent(alloc, proto, polls, &mut access, &mut source, &mut sink);
    Some(Left {
        ends: end_text(rt, alloc, sent),
        written: sink.taken().to_vec(alloc).expect(rt, "memory"),
        numbers: waiting(rt, alloc, &mut access),
        pauses,
    })
}
