//! A slot of a disk in memory, and groups in it.
ghost use Rattle.std.specs.Prelude.{◌≡◌, ◌≢◌, ◌+◌, ◌<◌, ◌≤◌, ℕ, List, true, length, slice_index, All, IsTrue};
ghost use Rattle.event_form.specs.Entry.{IsEntry};
ghost use Rattle.edge_memory.specs.MemDisk.{mem_moment};

use crate::calls::group_of;
use edge_memory::MemDisk;
use event_form::Entry;
use spool_slots::{Slot, SlotFault};
use std::alloc::Global;
use std::process::Abort;

/// Whether the slot lies in the disk, with small numbers.
pub(crate) fn fits(slot: &Slot, disk: &MemDisk) -> bool
    ensures place { IsTrue result → slot.now.at + slot.now.size ≤ (mem_moment disk.now).size }
    ensures first { IsTrue result → slot.now.first ≤ 1000 }
{
    if slot.at > 10_000_000 || slot.size > 10_000_000 || slot.first > 1000 {
        return false;
    }
    slot.at + slot.size <= disk.bytes().len() as u64
}

/// A slot of a disk in memory. It awaits a group as long as each one was added.
#[derive(Drop)]
pub(crate) struct Bench {
    pub disk: MemDisk,
    pub slot: Slot,
    pub awaits: bool,
    pub ghost closed: { awaits ≡ true → (c : List ℕ) → (mem_moment disk).image c → slice_index c (slot.at + slot.gate) ≢ 1 },
}

/// A slot begun at offset 100 of a disk of zeros, of which a call fails, or each one from `stop` on where that
/// isn't 0.
pub(crate) fn begun(rt: &impl Abort, alloc: Global, size: u64, failing: u64, stop: u64) -> Bench {
    assert!(rt; size >= 4096 && size <= 5_000_000);
    let zeros = vec![in alloc; 0; size as usize + 200].expect(rt, "memory");
    let mut disk = if stop > 0 {
        MemDisk::stopped(zeros, stop)
    } else {
        MemDisk::of(zeros, [failing].to_vec(alloc).expect(rt, "memory"))
    };
    match Slot::begin(&mut disk, 100, size, 1, 0) {
        Ok(slot) => Bench {
            disk,
            slot,
            awaits: true,
        },
        Err(_) => panic!(rt; "begin"),
    }
}

// What becomes of a group, and the slot after it.
fn add(
    rt: &impl Abort,
    alloc: Global,
    bench: Bench,
    entries: &[Entry],
) -> (Result<(), SlotFault>, Bench)
    requires some { 0 < length entries.now }
    requires few { length entries.now < 100 }
    requires limits { All IsEntry entries.now }
{
    let Bench {
        mut disk,
        mut slot,
        awaits,
    } = bench;
    if !awaits || !fits(&slot, &disk) {
        panic!(rt; "slot");
    }
    let mut buffer = vec![in alloc; 9; 65_536].expect(rt, "memory");
    match slot.append_entries(&mut disk, entries, &mut buffer) {
        Ok(()) => {
            let awaits = true;
            (Ok(()), Bench { disk, slot, awaits })
        }
        Err(fault) => {
            let awaits = false;
            (Err(fault), Bench { disk, slot, awaits })
        }
    }
}

/// Adds the group that is spelled so: what becomes of it, and the slot after it.
pub(crate) fn add_group(
    rt: &impl Abort,
    alloc: Global,
    bench: Bench,
    spelled: &str,
) -> (Result<(), SlotFault>, Bench) {
    let group = group_of(rt, alloc, spelled);
    assert!(rt; !group.is_empty());
    add(rt, alloc, bench, &group)
}
