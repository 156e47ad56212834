//! Spools on disks in memory, made, moved and looked at.
ghost use Rattle.event_form.specs.Entry.{IsEntry};

use edge_memory::MemDisk;
use event_form::{Blob, Entry, Event, MOST_TEXT, Origin};
use known_numbers::Stretch;
use spool_log::{Opening, Spool, format};
use spool_move::{MoveFault, move_pending};
use std::alloc::Global;
use std::process::Abort;

/// The bytes as a vector.
pub(crate) fn copied(rt: &impl Abort, alloc: Global, bytes: &[u8]) -> Vec<u8> {
    bytes.to_vec(alloc).expect(rt, "memory")
}

/// A disk with these bytes that fails no call.
pub(crate) fn disk_of(rt: &impl Abort, alloc: Global, bytes: &[u8]) -> MemDisk {
    MemDisk::of(copied(rt, alloc, bytes), Vec::new(alloc))
}

/// The spool on a disk, which is one.
pub(crate) fn opened(rt: &impl Abort, alloc: Global, disk: MemDisk) -> Spool<MemDisk> {
    match Spool::recover(alloc, disk, Opening::Keep) {
        Ok(spool) => spool,
        Err(_) => panic!(rt; "no spool"),
    }
}

/// An entry as a sender's session makes it: the first connection of run 1, with this index.
fn entry(rt: &impl Abort, alloc: Global, index: u64, text: &[u8]) -> Entry
    ensures { IsEntry result }
{
    let text = copied(rt, alloc, text);
    if text.len() > MOST_TEXT {
        panic!(rt; "no such entry");
    }
    Entry {
        conn: 4_294_967_296,
        index,
        unit: 2,
        event: Event {
            origin: Origin::Relp,
            text: Blob::of(text),
        },
    }
}

/// Takes events with these texts, each as a group of its own.
pub(crate) fn take_texts(
    rt: &impl Abort,
    alloc: Global,
    spool: &mut Spool<MemDisk>,
    texts: &[&[u8]],
) {
    for (index, text) in texts.iter().enumerate() {
        let entry = entry(rt, alloc, index as u64, text);
        spool.take(&[entry]).ok().expect(rt, "a taken entry");
    }
}

/// The device of a new spool of so many slots of this size, with events of these texts pending.
pub(crate) fn device(
    rt: &impl Abort,
    alloc: Global,
    slots: u32,
    size: u64,
    texts: &[&[u8]],
) -> Vec<u8> {
    assert!(rt; slots >= 1 && slots <= 9 && size >= 4096 && size <= 1_000_000);
    let len = (12_288 + u64::from(slots) * size) as usize;
    let zeros = vec![in alloc; 0; len].expect(rt, "memory");
    let mut disk = MemDisk::of(zeros, Vec::new(alloc));
    format(&mut disk, slots, size)
        .ok()
        .expect(rt, "a new spool");
    let mut spool = opened(rt, alloc, disk);
    take_texts(rt, alloc, &mut spool, texts);
    copied(rt, alloc, spool.into_disk().bytes())
}

/// A new spool of so many slots of this size, on a disk that keeps no record of what it held.
pub(crate) fn plain(rt: &impl Abort, alloc: Global, slots: u32, size: u64) -> Spool<MemDisk> {
    assert!(rt; slots >= 1 && slots <= 9 && size >= 4096 && size <= 1_000_000);
    let len = 12_288 + u64::from(slots) * size;
    let mut disk = MemDisk::plain(alloc, len).expect(rt, "memory");
    format(&mut disk, slots, size)
        .ok()
        .expect(rt, "a new spool");
    opened(rt, alloc, disk)
}

/// The device once the numbers of the stretches are known as confirmed.
pub(crate) fn confirmed(
    rt: &impl Abort,
    alloc: Global,
    device: &[u8],
    known: &[(u64, u64)],
) -> Vec<u8> {
    let mut spool = opened(rt, alloc, disk_of(rt, alloc, device));
    for (from, to) in known {
        assert!(rt; *from <= *to && *to <= spool.end());
        let stretch = Stretch {
            from: *from,
            to: *to,
        };
        spool.mark(&[stretch]).ok().expect(rt, "marked numbers");
    }
    copied(rt, alloc, spool.into_disk().bytes())
}

/// What a run of a move answers, and both disks after it.
#[derive(Drop)]
pub(crate) struct Ended {
    pub answer: Result<u64, MoveFault>,
    pub source: MemDisk,
    pub target: MemDisk,
}

/// One run over these disks: both are opened, and the source's pending entries moved. A disk that can't be opened since a
/// call of it fails is the answer of that disk's failing.
pub(crate) fn run(alloc: Global, source: MemDisk, target: MemDisk, tag: u32) -> Ended {
    let mut from = match Spool::recover(alloc, source, Opening::Keep) {
        Ok(spool) => spool,
        Err(refusal) => {
            return Ended {
                answer: Err(MoveFault::SourceFault),
                source: refusal.disk,
                target,
            };
        }
    };
    let mut onto = match Spool::recover(alloc, target, Opening::Keep) {
        Ok(spool) => spool,
        Err(refusal) => {
            return Ended {
                answer: Err(MoveFault::TargetFault),
                source: from.into_disk(),
                target: refusal.disk,
            };
        }
    };
    let answer = move_pending(alloc, &mut from, &mut onto, tag);
    Ended {
        answer,
        source: from.into_disk(),
        target: onto.into_disk(),
    }
}

/// One run over devices with these bytes, of which no call fails.
pub(crate) fn run_over(
    rt: &impl Abort,
    alloc: Global,
    source: &[u8],
    target: &[u8],
    tag: u32,
) -> Ended {
    run(
        alloc,
        disk_of(rt, alloc, source),
        disk_of(rt, alloc, target),
        tag,
    )
}

/// The pending entries of the spool on a device, each as `NUMBER CONNECTION INDEX UNIT LENGTH`, and LF.
pub(crate) fn pending(rt: &impl Abort, alloc: Global, device: &[u8]) -> String {
    let mut spool = opened(rt, alloc, disk_of(rt, alloc, device));
    let mut text = String::new(alloc);
    for one in &spool.pending(0, 100_000).ok().expect(rt, "entries") {
        let entry = &one.entry;
        let len = entry.event.text.bytes().len();
        write!(
            text,
            "{} {} {} {} {len}\n",
            one.number, entry.conn, entry.index, entry.unit
        )
        .expect(rt, "memory");
    }
    text
}

/// The cursor of the spool on a device.
pub(crate) fn cursor(rt: &impl Abort, alloc: Global, device: &[u8]) -> u64 {
    opened(rt, alloc, disk_of(rt, alloc, device)).cursor()
}
