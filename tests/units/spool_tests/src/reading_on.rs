//! What it costs to read on where a reading ended, or to read again where it began.
use crate::made::event_of;
use crate::play::plain;
use crate::slots::counting_disk::CountingDisk;
use edge_memory::MemDisk;
use spool_log::{Opening, Spool};
use std::alloc::Global;
use std::process::Abort;

/// How many bytes a slot has, how many events of 100 bytes are stored, read and confirmed at once, and how
/// many are then forwarded one after another.
const ROWS: [(u64, u32, u32); 5] = [
    (400_000, 0, 3),
    (400_000, 20, 3),
    (400_000, 2_000, 3),
    (400_000, 0, 2_000),
    // a slot has room for 29 of them
    (4_096, 0, 100),
];

// An empty spool of two slots of so many bytes, on a disk that counts what is read of it.
fn counted(rt: &impl Abort, alloc: Global, size: u64) -> Spool<CountingDisk<MemDisk>> {
    let counting = CountingDisk {
        disk: plain(rt, alloc, 2, size),
        reads: 0,
        bytes: 0,
    };
    match Spool::recover(alloc, counting, Opening::Keep) {
        Ok(spool) => spool,
        Err(_) => panic!(rt; "open"),
    }
}

// Stores an event of 100 bytes, in a group of its own.
fn store(rt: &impl Abort, alloc: Global, spool: &mut Spool<CountingDisk<MemDisk>>) {
    let group = [event_of(rt, alloc, 7, 1, 100)];
    spool.take(&group).ok().expect(rt, "take");
}

// How many of at most so many entries are given from a number on.
fn given(
    rt: &impl Abort,
    spool: &mut Spool<CountingDisk<MemDisk>>,
    number: u64,
    most: u32,
) -> usize {
    let from = number.min(spool.end());
    spool.pending(from, most).ok().expect(rt, "pending").len()
}

fn confirm(rt: &impl Abort, spool: &mut Spool<CountingDisk<MemDisk>>) {
    let end = spool.end();
    spool.confirm(end).ok().expect(rt, "confirm");
}

// Forwards one event more as a server does: it looks in vain, and once the event is stored it looks and reads for
// a session by which nothing is confirmed, and for one by which all is. It answers how often the disk is read for
// these two sessions, and how many bytes.
fn forwarded(
    rt: &impl Abort,
    alloc: Global,
    spool: &mut Spool<CountingDisk<MemDisk>>,
) -> (u64, u64) {
    let number = spool.end();
    assert!(rt; given(rt, spool, 0, 1) == 0);
    store(rt, alloc, spool);
    let (reads, bytes) = (spool.disk.reads, spool.disk.bytes);
    for _ in 0..2 {
        assert!(rt; given(rt, spool, 0, 1) == 1);
        assert!(rt; given(rt, spool, number, 128) == 1);
    }
    let reads = spool.disk.reads.saturating_sub(reads);
    let bytes = spool.disk.bytes.saturating_sub(bytes);
    confirm(rt, spool);
    (reads, bytes)
}

// Stores so many events, reads and confirms them at once, and then forwards more. Whether each of the four readings of
// one event reads that alone.
fn walks_over_nothing_again(
    rt: &impl Abort,
    alloc: Global,
    spool: &mut Spool<CountingDisk<MemDisk>>,
    stored: u32,
    more: u32,
) -> bool {
    for _ in 0..stored {
        store(rt, alloc, spool);
    }
    assert!(rt; given(rt, spool, 0, stored) == stored as usize);
    confirm(rt, spool);
    for _ in 0..more {
        if forwarded(rt, alloc, spool) != (4, 4 * 139) {
            return false;
        }
    }
    true
}

/// Whether each of four readings of one event reads that alone, whatever was stored in the slot before it: a
/// group's gate, length and count (9 bytes), an entry with a text of 100 bytes (129), and the gate after it.
pub(crate) fn a_reading_walks_over_nothing_again(rt: &impl Abort, alloc: Global) -> bool {
    for (size, stored, more) in &ROWS {
        let mut spool = counted(rt, alloc, *size);
        if !walks_over_nothing_again(rt, alloc, &mut spool, *stored, *more) {
            return false;
        }
    }
    true
}
