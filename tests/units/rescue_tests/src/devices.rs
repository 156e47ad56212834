//! Devices in memory, made, damaged and rescued from.
ghost use Rattle.event_form.specs.Entry.{IsEntry};

use bridge_rescue::{Layout, Report, Rescued, Why, bridge_rescue};
use edge_io::MemSink;
use edge_memory::MemDisk;
use event_form::{Blob, Entry, Event, MOST_TEXT, Origin};
use spool_log::{Opening, Spool, format};
use std::alloc::Global;
use std::process::Abort;

/// Bytes of a slot, and where each begins.
pub(crate) const SIZE: usize = 4096;

pub(crate) const SLOTS: [usize; 3] = [12_288, 16_384, 20_480];

/// The bytes as a vector.
pub(crate) fn copied(rt: &impl Abort, alloc: Global, bytes: &[u8]) -> Vec<u8> {
    bytes.to_vec(alloc).expect(rt, "memory")
}

/// An entry with a text of 1,000 times this byte.
pub(crate) fn entry_of(rt: &impl Abort, alloc: Global, byte: u8) -> Entry
    ensures { IsEntry result }
{
    let text = vec![in alloc; byte; 1000].expect(rt, "memory");
    if text.len() > MOST_TEXT {
        panic!(rt; "no such entry");
    }
    Entry {
        conn: 4_294_967_296,
        index: 0,
        unit: 2,
        event: Event {
            origin: Origin::Relp,
            text: Blob::of(text),
        },
    }
}

// A disk with an empty spool of three slots.
fn formatted(rt: &impl Abort, alloc: Global) -> MemDisk {
    let mut disk = MemDisk::plain(alloc, 24_576).expect(rt, "memory");
    format(&mut disk, 3, 4096).ok().expect(rt, "a new spool");
    disk
}

// Stores the entry.
fn take_one(rt: &impl Abort, spool: &mut Spool<MemDisk>, one: Entry)
    requires { IsEntry one }
{
    spool.take(&[one]).ok().expect(rt, "a taken entry");
}

/// A new spool of three slots.
pub(crate) fn opened_new(rt: &impl Abort, alloc: Global) -> Spool<MemDisk> {
    opened(rt, alloc, formatted(rt, alloc))
}

// The spool on the disk, which is one.
fn opened(rt: &impl Abort, alloc: Global, disk: MemDisk) -> Spool<MemDisk> {
    match Spool::recover(alloc, disk, Opening::Keep) {
        Ok(spool) => spool,
        Err(_) => panic!(rt; "no spool"),
    }
}

/// The pending entries of the spool on a device, each as `NUMBER CONNECTION INDEX UNIT LETTER`, and LF.
pub(crate) fn pending(rt: &impl Abort, alloc: Global, device: &[u8]) -> String {
    let disk = MemDisk::of(copied(rt, alloc, device), Vec::new(alloc));
    let mut spool = opened(rt, alloc, disk);
    let mut text = String::new(alloc);
    for one in &spool.pending(0, 100).ok().expect(rt, "entries") {
        let entry = &one.entry;
        let letter = match entry.event.text.bytes() {
            [first, ..] => char::from(*first),
            [] => '-',
        };
        write!(
            text,
            "{} {} {} {} {letter}\n",
            one.number, entry.conn, entry.index, entry.unit
        )
        .expect(rt, "memory");
    }
    text
}

/// The device of a spool of three slots, with three entries in each of the first two and one in the last: their texts are `a` to `g`, 1,000
/// times each.
pub(crate) fn device(rt: &impl Abort, alloc: Global) -> Vec<u8> {
    let mut spool = opened_new(rt, alloc);
    for byte in b"abcdefg" {
        let one = entry_of(rt, alloc, *byte);
        take_one(rt, &mut spool, one);
    }
    copied(rt, alloc, spool.into_disk().bytes())
}

/// The lines of the entries whose texts are these letters.
pub(crate) fn lines(rt: &impl Abort, alloc: Global, letters: &[u8]) -> Vec<u8> {
    let mut lines = Vec::new(alloc);
    for letter in letters {
        let text = vec![in alloc; *letter; 1000].expect(rt, "memory");
        lines
            .extend_from_slice(b"{\"message\":\"")
            .expect(rt, "memory");
        lines.extend_from_slice(&text).expect(rt, "memory");
        lines.extend_from_slice(b"\"}\n").expect(rt, "memory");
    }
    lines
}

/// The device with these bytes from an offset on.
pub(crate) fn damaged(rt: &impl Abort, alloc: Global, at: usize, bytes: &[u8]) -> Vec<u8> {
    let mut device = device(rt, alloc);
    for (place, byte) in device.iter_mut().enumerate() {
        if let Some(offset) = place.checked_sub(at)
            && let Some(new) = bytes.get(offset)
        {
            *byte = *new;
        }
    }
    device
}

/// The first bytes of a device.
pub(crate) fn front(rt: &impl Abort, alloc: Global, device: &[u8], count: usize) -> Vec<u8> {
    let mut bytes = copied(rt, alloc, device);
    bytes.truncate(count);
    bytes
}

/// How a rescue ended: its status, what it printed, what it found, and the disk.
#[derive(Drop)]
pub(crate) struct Ending {
    pub status: u8,
    pub printed: Vec<u8>,
    pub report: Option<Report>,
    pub disk: MemDisk,
}

/// A rescue from the disk, with the layout that is given. Of the output these writes fail.
pub(crate) fn rescue(
    rt: &impl Abort,
    alloc: Global,
    given: Option<Layout>,
    disk: MemDisk,
    writes: &[u64],
) -> Ending {
    let mut output = MemSink::of(alloc, writes.to_vec(alloc).expect(rt, "memory"));
    let Rescued {
        status,
        note,
        report,
        disk,
    } = bridge_rescue(alloc, given, disk, &mut output);
    assert!(rt; status == note.status());
    Ending {
        status,
        printed: copied(rt, alloc, output.taken()),
        report,
        disk,
    }
}

/// A rescue from a device of which no call fails. It leaves the device as it was.
pub(crate) fn rescued(
    rt: &impl Abort,
    alloc: Global,
    given: Option<Layout>,
    device: &[u8],
) -> Ending {
    let disk = MemDisk::of(copied(rt, alloc, device), Vec::new(alloc));
    let ending = rescue(rt, alloc, given, disk, &[]);
    assert!(rt; ending.disk.bytes() == device);
    ending
}

/// One fault of a slot that is due: its place, why, and where.
pub(crate) type Due = (u32, Why, u64);

/// Numbers that are missing between slots: from one on, up to another.
pub(crate) type Missing = (u64, u64);

/// The rescue ended with this status, printed the entries of these letters, and found so many sound slots, these faults, and these numbers
/// missing.
pub(crate) fn is_as(
    rt: &impl Abort,
    alloc: Global,
    ending: &Ending,
    status: u8,
    letters: &[u8],
    sound: u32,
    faults: &[Due],
    missing: &[Missing],
) {
    assert!(rt; ending.status == status);
    assert!(rt; ending.printed.as_slice() == lines(rt, alloc, letters).as_slice());
    let Some(report) = &ending.report else {
        panic!(rt; "no report");
    };
    assert!(rt; report.sound == sound);
    assert!(rt; report.printed == Some(letters.len() as u64));
    assert!(rt; report.faults.len() == faults.len());
    for (fault, due) in report.faults.iter().zip(faults) {
        let (place, why, at) = *due;
        assert!(rt; fault.place == place && fault.why == why && fault.at == at);
    }
    assert!(rt; report.gaps.len() == missing.len());
    for (gap, due) in report.gaps.iter().zip(missing) {
        assert!(rt; (gap.from, gap.to) == *due);
    }
}
