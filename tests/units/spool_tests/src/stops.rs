//! A change that is stopped at each call of the disk.
use crate::calls::{opened, recovered, say_change, say_pending, slots_of};
use crate::play::{calls_to_open, formatted};
use crate::words::{are, copied, number, word};
use edge_memory::{Crash, MemDisk};
use spool_log::{Opening, RecoverFault};
use std::alloc::Global;
use std::process::Abort;

/// What a crash may do.
pub(crate) const CRASHES: [Crash; 5] = [
    Crash::Synced,
    Crash::Written,
    Crash::Filled(0),
    Crash::Filled(1),
    Crash::Filled(255),
];

/// A change, how many calls of the disk it makes, and what stands before it and after: cursor, end and what is
/// pending.
#[derive(Clone, Copy)]
pub(crate) struct Change<'a> {
    pub calls: u64,
    pub old: &'a str,
    pub new: &'a str,
    pub step: &'a str,
}

// What stands before and after the next ` | `.
fn parted<'a>(rt: &impl Abort, text: &'a str) -> (&'a str, &'a str) {
    text.split_once(" | ").expect(rt, "a part")
}

/// The change that is spelled `CALLS | OLD | NEW | STEP`.
pub(crate) fn change_of<'a>(rt: &impl Abort, spelled: &'a str) -> Change<'a> {
    let (calls, rest) = parted(rt, spelled);
    let (old, rest) = parted(rt, rest);
    let (new, step) = parted(rt, rest);
    Change {
        calls: number(rt, calls),
        old,
        new,
        step,
    }
}

// The disk of a spool on this device after a change, with a stop after so many calls, and whether the change was
// answered as done.
fn stopped(
    rt: &impl Abort,
    alloc: Global,
    device: &[u8],
    calls: u64,
    step: &str,
) -> (bool, MemDisk) {
    let disk = MemDisk::stopped(copied(rt, alloc, device), calls);
    let mut spool = opened(rt, alloc, disk, Opening::Keep);
    let (name, rest) = word(step);
    let said = say_change(rt, alloc, &mut spool, name, rest).expect(rt, "a change");
    let done = said.as_str() == "done" || said.as_str().starts_with("taken ");
    (done, spool.into_disk())
}

// Cursor, end and what is pending of the spool that a crash leaves.
fn left(rt: &impl Abort, alloc: Global, disk: MemDisk, choice: Crash) -> String {
    let mut spool = opened(rt, alloc, disk.crash(choice), Opening::Keep);
    let pending = say_pending(rt, alloc, &mut spool, 0, 100);
    format!(in alloc; "{} {}: {pending}", spool.cursor(), spool.end()).expect(rt, "memory")
}

// Whether what stands after a stop after so many calls and a crash is what stood before the change or after it,
// and after it where the change was answered as done, which it was where it made all its calls: `whole`.
fn stops_well(
    rt: &impl Abort,
    alloc: Global,
    device: &[u8],
    calls: u64,
    change: Change<'_>,
    whole: bool,
) -> bool {
    for choice in &CRASHES {
        let (done, disk) = stopped(rt, alloc, device, calls, change.step);
        let state = left(rt, alloc, disk, *choice);
        let is_new = state.as_str() == change.new;
        let is_old = state.as_str() == change.old && !done;
        if done != whole || !(is_new || is_old) {
            return false;
        }
    }
    true
}

/// Whether the change, wherever it is stopped, leaves what was there, and all of the change or none; and
/// after the answer all of it.
pub(crate) fn leaves_all_or_none(
    rt: &impl Abort,
    alloc: Global,
    device: &[u8],
    spelled: &str,
) -> bool {
    let change = change_of(rt, spelled);
    let first = calls_to_open(rt, alloc, device);
    for made in 0..=change.calls {
        let calls = first.saturating_add(made);
        if !stops_well(rt, alloc, device, calls, change, made == change.calls) {
            return false;
        }
    }
    true
}

// Whether what is read, and what is durable, differ where the change was stopped after so many calls, and after so
// many more.
fn differ(
    rt: &impl Abort,
    alloc: Global,
    device: &[u8],
    calls: u64,
    more: u64,
    step: &str,
) -> (bool, bool) {
    let (_, before) = stopped(rt, alloc, device, calls, step);
    let (_, after) = stopped(rt, alloc, device, calls.saturating_add(more), step);
    let read = after.bytes() != before.bytes();
    let before = before.crash(Crash::Synced);
    let after = after.crash(Crash::Synced);
    (read, after.bytes() != before.bytes())
}

/// Whether the change's writes and syncs alternate: a sync changes what is durable, and a write what is
/// read. A write that fails changes half of its range, so what is read may change after a sync too. And
/// whether there is no call more.
pub(crate) fn alternates(rt: &impl Abort, alloc: Global, device: &[u8], spelled: &str) -> bool {
    let change = change_of(rt, spelled);
    let first = calls_to_open(rt, alloc, device);
    for made in 0..change.calls {
        let calls = first.saturating_add(made);
        let (read, durable) = differ(rt, alloc, device, calls, 1, change.step);
        let syncs = made % 2 == 1;
        if durable != syncs || !(read || syncs) {
            return false;
        }
    }
    let all = first.saturating_add(change.calls);
    let (_, durable) = differ(rt, alloc, device, all, 100, change.step);
    !durable
}

// Where the active slot of a disk is, or why it is no spool.
fn seen(alloc: Global, disk: MemDisk) -> Result<[u64; 6], RecoverFault> {
    match recovered(alloc, disk, Opening::Keep) {
        Ok(spool) => Ok(slots_of(&spool)),
        Err(refusal) => Err(refusal.fault),
    }
}

// What a new format of two slots may leave where it is stopped after so many calls: the old spool, none, or the
// empty one. It makes a sync; the magic read and erased, a sync; five writes, a sync; the magic, a sync.
fn may_be_left(calls: u64, old: bool, none: bool, empty: bool) -> bool {
    match calls {
        0 | 1 => old,
        2 | 3 => old || none,
        4..=9 => none,
        10 | 11 => empty || none,
        _ => empty,
    }
}

// Whether what stands is what a format may leave that is stopped after so many calls.
fn is_as_formatted(seen: Result<[u64; 6], RecoverFault>, calls: u64, old: &str) -> bool {
    match seen {
        Ok(slots) => {
            let empty = slots == [12_288, 17, 0, 0, 0, 0];
            may_be_left(calls, are(old, &slots), false, empty)
        }
        Err(fault) => {
            let none = fault == RecoverFault::NotSpool { at: 0 };
            may_be_left(calls, false, none, false)
        }
    }
}

/// Whether a format of the device, wherever it is stopped, leaves the old spool, none or the empty one, each
/// as far as it may.
pub(crate) fn format_stops(rt: &impl Abort, alloc: Global, device: &[u8], old: &str) -> bool {
    for calls in 0..14 {
        for choice in &CRASHES {
            let mut disk = MemDisk::stopped(copied(rt, alloc, device), calls);
            let done = formatted(rt, &mut disk, 2, 4096).is_ok();
            let seen = seen(alloc, disk.crash(*choice));
            if done != (calls >= 12) || !is_as_formatted(seen, calls, old) {
                return false;
            }
        }
    }
    true
}
