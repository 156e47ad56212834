//! Spools on disks in memory, made, skipped in and looked at.
ghost use Rattle.event_form.specs.Entry.{IsEntry};

use bridge_skip::{Skipped, bridge_skip};
use edge_io::MemSink;
use edge_memory::MemDisk;
use event_form::{Blob, Entry, Event, MOST_TEXT, Origin};
use known_numbers::Stretch;
use spool_log::{Opening, Spool, format};
use std::alloc::Global;
use std::process::Abort;

/// The bytes as a vector.
pub(crate) fn copied(rt: &impl Abort, alloc: Global, bytes: &[u8]) -> Vec<u8> {
    bytes.to_vec(alloc).expect(rt, "memory")
}

/// A disk with these bytes that fails these calls.
pub(crate) fn disk_of(rt: &impl Abort, alloc: Global, bytes: &[u8], failing: &[u64]) -> MemDisk {
    MemDisk::of(
        copied(rt, alloc, bytes),
        failing.to_vec(alloc).expect(rt, "memory"),
    )
}

// The spool on a disk, which is one.
fn opened(rt: &impl Abort, alloc: Global, disk: MemDisk) -> Spool<MemDisk> {
    match Spool::recover(alloc, disk, Opening::Keep) {
        Ok(spool) => spool,
        Err(_) => panic!(rt; "no spool"),
    }
}

// An entry as a sender's session makes it.
fn entry(rt: &impl Abort, alloc: Global, index: u64, text: &[u8]) -> Entry
    ensures { IsEntry result }
{
    let text = copied(rt, alloc, text);
    if text.len() > MOST_TEXT {
        panic!(rt; "no such entry");
    }
    Entry {
        conn: 4_294_967_296,
        index,
        unit: 2,
        event: Event {
            origin: Origin::Relp,
            text: Blob::of(text),
        },
    }
}

// Takes events with these texts, each as a group of its own.
fn take_texts(rt: &impl Abort, alloc: Global, spool: &mut Spool<MemDisk>, texts: &[&[u8]]) {
    for (index, text) in texts.iter().enumerate() {
        let entry = entry(rt, alloc, index as u64, text);
        spool.take(&[entry]).ok().expect(rt, "a taken entry");
    }
}

/// The device of a new spool of two slots of 4,096 bytes, with events of these texts pending.
pub(crate) fn device(rt: &impl Abort, alloc: Global, texts: &[&[u8]]) -> Vec<u8> {
    let zeros = vec![in alloc; 0; 20_480].expect(rt, "memory");
    let mut disk = MemDisk::of(zeros, Vec::new(alloc));
    format(&mut disk, 2, 4096).ok().expect(rt, "a new spool");
    let mut spool = opened(rt, alloc, disk);
    take_texts(rt, alloc, &mut spool, texts);
    copied(rt, alloc, spool.into_disk().bytes())
}

/// A disk that keeps no record of what it held, with 490 events pending but every other one from number 1 on, of which 240 are confirmed.
pub(crate) fn with_stretches(rt: &impl Abort, alloc: Global) -> MemDisk {
    let mut disk = MemDisk::plain(alloc, 143_360).expect(rt, "memory");
    format(&mut disk, 2, 65_536).ok().expect(rt, "a new spool");
    let mut spool = opened(rt, alloc, disk);
    let one: &[u8] = b"x";
    take_texts(rt, alloc, &mut spool, &[one; 490]);
    for count in 0..240u64 {
        let from = 2 * count + 1;
        assert!(rt; from < spool.end());
        let stretch = Stretch { from, to: from + 1 };
        spool.mark(&[stretch]).ok().expect(rt, "a marked number");
    }
    spool.into_disk()
}

/// The numbers that are pending on a device, each followed by a space.
pub(crate) fn pending(rt: &impl Abort, alloc: Global, device: &[u8]) -> String {
    let mut spool = opened(rt, alloc, disk_of(rt, alloc, device, &[]));
    let mut text = String::new(alloc);
    for one in &spool.pending(0, 100_000).ok().expect(rt, "entries") {
        let number = one.number;
        write!(text, "{number} ").expect(rt, "memory");
    }
    text
}

/// How a skip ended: its status, what it printed, and the disk.
#[derive(Drop)]
pub(crate) struct Ending {
    pub status: u8,
    pub printed: Vec<u8>,
    pub disk: MemDisk,
}

/// A skip of this number over the disk. Of the output these writes fail.
pub(crate) fn skip(
    rt: &impl Abort,
    alloc: Global,
    number: u64,
    disk: MemDisk,
    writes: &[u64],
) -> Ending {
    let mut output = MemSink::of(alloc, writes.to_vec(alloc).expect(rt, "memory"));
    let Skipped { status, note, disk } = bridge_skip(alloc, number, disk, &mut output);
    assert!(rt; status == note.status());
    Ending {
        status,
        printed: copied(rt, alloc, output.taken()),
        disk,
    }
}

/// A skip of this number over a device of which no call fails.
pub(crate) fn skipped(rt: &impl Abort, alloc: Global, number: u64, device: &[u8]) -> Ending {
    skip(rt, alloc, number, disk_of(rt, alloc, device, &[]), &[])
}
