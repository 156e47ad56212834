//! What is read of a slot, and how often the disk is read for it.
use crate::faults::fault_text;
use crate::script::Step;
use crate::slots::benches::{Bench, fits};
use crate::slots::counting_disk::CountingDisk;
use crate::words::{are, copied, number, word};
use edge_memory::MemDisk;
use spool_slots::{Mark, ScanFault, Slot, Window};
use std::alloc::Global;
use std::process::Abort;

// A disk of these bytes.
fn counting(rt: &impl Abort, alloc: Global, bytes: &[u8]) -> CountingDisk<MemDisk> {
    CountingDisk {
        disk: MemDisk::of(copied(rt, alloc, bytes), Vec::new(alloc)),
        reads: 0,
        bytes: 0,
    }
}

// What a scan of the slot of so many bytes at offset 100 finds.
fn scanned(
    rt: &impl Abort,
    alloc: Global,
    disk: &mut CountingDisk<MemDisk>,
    size: u64,
) -> Result<Option<Slot>, ScanFault> {
    assert!(rt; size >= 4096 && size <= 5_000_000);
    assert!(rt; disk.disk.bytes().len() as u64 >= 100 + size);
    let mut window = Window::new(alloc).expect(rt, "memory");
    Slot::scan(disk, &mut window, 100, size)
}

// Whether a scan found this: the numbers of a slot, `closed` or the fault.
fn is_found(
    rt: &impl Abort,
    alloc: Global,
    found: Result<Option<Slot>, ScanFault>,
    want: &str,
) -> bool {
    match found {
        Ok(Some(slot)) => is_slot(&slot, want),
        Ok(None) => want == "closed",
        Err(fault) => fault_text(rt, alloc, &fault).as_str() == want,
    }
}

/// Whether a scan of the slot of 4096 bytes at offset 100 finds what is told so.
pub(crate) fn finds(rt: &impl Abort, alloc: Global, bytes: &[u8], want: &str) -> bool {
    let mut disk = counting(rt, alloc, bytes);
    let found = scanned(rt, alloc, &mut disk, 4096);
    is_found(rt, alloc, found, want)
}

/// Whether what a scan of the device finds is as the step says: `scan SIZE`. `scan_cost SIZE` says instead how often
/// it reads the disk, and how many bytes; `scan_bytes SIZE` how many bytes.
pub(crate) fn scans(rt: &impl Abort, alloc: Global, device: &[u8], step: Step<'_>) -> bool {
    let mut disk = counting(rt, alloc, device);
    let found = scanned(rt, alloc, &mut disk, number(rt, step.rest));
    match step.name {
        "scan_cost" => found.is_ok() && are(step.want, &[disk.reads, disk.bytes]),
        "scan_bytes" => found.is_ok() && are(step.want, &[disk.bytes]),
        _ => is_found(rt, alloc, found, step.want),
    }
}

/// Whether the ordinal, the first number, the gate and the count of an open slot are these.
pub(crate) fn is_slot(slot: &Slot, want: &str) -> bool {
    are(want, &[slot.ordinal, slot.first, slot.gate, slot.count])
}

// Puts the units of the entries of a part after those that were read, and answers the mark after it.
fn read_units(
    rt: &impl Abort,
    alloc: Global,
    disk: &mut CountingDisk<MemDisk>,
    slot: &Slot,
    window: &mut Window,
    mark: Mark,
    most: u32,
    units: &mut Vec<u64>,
) -> Mark {
    assert!(rt; fits(slot, &disk.disk));
    let part = slot.read_part(alloc, disk, window, mark, most);
    let part = part.ok().expect(rt, "part");
    for entry in &part.entries {
        units.push(entry.unit).expect(rt, "memory");
    }
    part.mark
}

// The mark of an entry.
fn passed(
    rt: &impl Abort,
    disk: &mut CountingDisk<MemDisk>,
    slot: &Slot,
    window: &mut Window,
    number: u64,
) -> Mark {
    let start = slot.start();
    assert!(rt; fits(slot, &disk.disk));
    assert!(rt; number >= start.number && number <= slot.first + slot.count);
    slot.pass(disk, window, start, number)
        .ok()
        .expect(rt, "pass")
}

// The units of all entries from a number on, read in parts of so many, at most 1000.
fn units_from(
    rt: &impl Abort,
    alloc: Global,
    disk: &mut CountingDisk<MemDisk>,
    slot: &Slot,
    number: u64,
    most: u64,
) -> Vec<u64> {
    let most = most.min(1000) as u32;
    let mut window = Window::new(alloc).expect(rt, "memory");
    let mut mark = passed(rt, disk, slot, &mut window, number);
    let mut units = Vec::new(alloc);
    for _ in 0..9 {
        mark = read_units(rt, alloc, disk, slot, &mut window, mark, most, &mut units);
    }
    let end = slot.first.saturating_add(slot.count);
    assert!(rt; mark.number == end && mark.at == slot.gate && mark.rest == 0);
    units
}

/// `NUMBER MOST`: whether so many entries are given from a number on in parts of so many, and the disk is read so
/// often for it, and so many bytes.
pub(crate) fn costs(rt: &impl Abort, alloc: Global, bench: &Bench, step: Step<'_>) -> bool {
    let (first, most) = word(step.rest);
    let (first, most) = (number(rt, first), number(rt, most));
    let mut disk = counting(rt, alloc, bench.disk.bytes());
    let units = units_from(rt, alloc, &mut disk, &bench.slot, first, most);
    are(step.want, &[units.len() as u64, disk.reads, disk.bytes])
}

// The units of all entries from a number on, as a script spells them.
fn told_from(rt: &impl Abort, alloc: Global, bench: &Bench, number: u64, most: u64) -> String {
    let mut disk = counting(rt, alloc, bench.disk.bytes());
    let units = units_from(rt, alloc, &mut disk, &bench.slot, number, most);
    format!(in alloc; "{units:?}").expect(rt, "memory")
}

/// `NUMBER LEAST MOST`: whether the units of the entries from a number on are these in parts of each of these sizes.
pub(crate) fn reads_units(rt: &impl Abort, alloc: Global, bench: &Bench, step: Step<'_>) -> bool {
    let (first, sizes) = word(step.rest);
    let (least, most) = word(sizes);
    let (first, least, most) = (number(rt, first), number(rt, least), number(rt, most));
    assert!(rt; least <= most);
    for size in least..=most {
        if told_from(rt, alloc, bench, first, size).as_str() != step.want {
            return false;
        }
    }
    true
}
