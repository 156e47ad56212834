//! Registers, and groups in one slot: steps of the scripts.
pub(crate) mod benches;
pub(crate) mod counting_disk;
pub(crate) mod groups;
pub(crate) mod reads;
pub(crate) mod registers;

use crate::play::Play;
use crate::script::Step;
use crate::slots::benches::{add_group, begun};
use crate::slots::groups::fails;
use crate::slots::reads::{costs, is_slot, reads_units, scans};
use crate::slots::registers::{is_register, set};
use crate::words::{are, copied, is_told, number, word};
use edge_memory::{Crash, MemDisk};
use std::alloc::Global;
use std::process::Abort;

// Changes the register of the device, and answers whether that is answered as the step says.
fn sets(rt: &impl Abort, alloc: Global, device: &mut Vec<u8>, step: Step<'_>) -> bool {
    let mut disk = MemDisk::of(copied(rt, alloc, device), Vec::new(alloc));
    let answer = set(rt, alloc, &mut disk, step.rest).expect(rt, "a register");
    *device = copied(rt, alloc, disk.bytes());
    is_told(rt, alloc, &answer, step.want)
}

// Adds a group so many times, and answers whether the last one is answered so.
fn adds(
    rt: &impl Abort,
    alloc: Global,
    play: &mut Play,
    count: u64,
    spelled: &str,
    want: &str,
) -> bool {
    assert!(rt; count > 0);
    let mut last = Ok(());
    for _ in 0..count {
        let bench = play.bench.take().expect(rt, "a slot");
        let (answer, bench) = add_group(rt, alloc, bench, spelled);
        play.bench = Some(bench);
        last = answer;
    }
    is_told(rt, alloc, &last, want)
}

// Makes these bytes the device, and answers whether they are as many as the step says.
fn leaves(rt: &impl Abort, alloc: Global, device: &mut Vec<u8>, bytes: &[u8], want: &str) -> bool {
    *device = copied(rt, alloc, bytes);
    are(want, &[bytes.len() as u64])
}

// Makes the device what a crash leaves of the slot's disk.
fn crashes(rt: &impl Abort, alloc: Global, play: &mut Play, want: &str) -> bool {
    let bench = play.bench.take().expect(rt, "a slot");
    let left = bench.disk.crash(Crash::Synced);
    leaves(rt, alloc, &mut play.device, left.bytes(), want)
}

// Looks how the slot stands that was begun. `None`: the step is none of these, or there is no such slot.
fn bench_says(rt: &impl Abort, alloc: Global, play: &mut Play, step: Step<'_>) -> Option<bool> {
    let Some(bench) = &play.bench else {
        return None;
    };
    match step.name {
        "slot" => Some(is_slot(&bench.slot, step.want)),
        "room" => Some(are(step.want, &[bench.slot.room()])),
        "units" => Some(reads_units(rt, alloc, bench, step)),
        "read_cost" => Some(costs(rt, alloc, bench, step)),
        "left" => {
            let bytes = bench.disk.bytes();
            Some(leaves(rt, alloc, &mut play.device, bytes, step.want))
        }
        _ => None,
    }
}

// Whether the register of the device is as the step says.
fn register_says(rt: &impl Abort, alloc: Global, device: &[u8], want: &str) -> bool {
    let mut disk = MemDisk::of(copied(rt, alloc, device), Vec::new(alloc));
    is_register(rt, alloc, &mut disk, want)
}

// Begins a slot, adds to it or stops it by a crash, and answers whether that is answered as the step says. `None`: the
// step is none of these.
fn fills(rt: &impl Abort, alloc: Global, play: &mut Play, step: Step<'_>) -> Option<bool> {
    let (first, more) = word(step.rest);
    match step.name {
        "begin" => {
            let bench = begun(rt, alloc, number(rt, first), number(rt, more), 0);
            play.bench = Some(bench);
            Some(step.want.is_empty())
        }
        "add" => Some(adds(rt, alloc, play, 1, step.rest, step.want)),
        "adds" => Some(adds(rt, alloc, play, number(rt, first), more, step.want)),
        "crash" => Some(crashes(rt, alloc, play, step.want)),
        _ => None,
    }
}

/// Works on a register or a slot, and answers whether what comes of it is as the step says. `None`: the step is none
/// of these.
///
/// - `register`: what is read of the device's register, as [`is_register`] has it; `set RUN CURSOR FROM TO FROM TO`,
///   with two stretches, one or none: changes it; `done` or the fault;
/// - `scan SIZE`, `scan_cost SIZE` and `scan_bytes SIZE`: what a scan finds in the device, and what it reads;
/// - `begin SIZE FAILING`: a slot, on a disk whose call of this number fails; `add ENTRY, ..` and
///   `adds COUNT ENTRY, ..`: a group in it, or so many; `done` or the fault of the last one;
/// - `slot`: the slot that was begun; `room`: its room; `units NUMBER LEAST MOST` and `read_cost NUMBER MOST`: what
///   is read from a number on, and what that costs;
/// - `left` and `crash`: the device is what the slot's disk reads, or what a crash leaves of it; its length;
/// - `failing ENTRY, ..`: which calls of the disk fail a group.
pub(crate) fn slot_says(
    rt: &impl Abort,
    alloc: Global,
    play: &mut Play,
    step: Step<'_>,
) -> Option<bool> {
    match step.name {
        "register" => Some(register_says(rt, alloc, &play.device, step.want)),
        "set" => Some(sets(rt, alloc, &mut play.device, step)),
        "scan" | "scan_cost" | "scan_bytes" => Some(scans(rt, alloc, &play.device, step)),
        "failing" => Some(fails(rt, alloc, step)),
        _ => match fills(rt, alloc, play, step) {
            Some(is_so) => Some(is_so),
            None => bench_says(rt, alloc, play, step),
        },
    }
}
