//! Rescues into another spool: what it has afterwards, a tag that isn't fresh, and a stop at each call of either disk.
use crate::devices::{SLOTS, copied, damaged, device, entry_of, opened_new, pending};
use bridge_restore::{Restored, bridge_restore};
use edge_memory::{Crash, MemDisk};
use std::alloc::Global;
use std::process::Abort;

/// What a crash may do to the other spool's disk.
const CRASHES: [Crash; 5] = [
    Crash::Synced,
    Crash::Written,
    Crash::Filled(0),
    Crash::Filled(1),
    Crash::Filled(255),
];

/// More calls than a run makes.
const ALL: u64 = 10_000;

/// The entries that are found, as the other spool has them: an entry of its own, and then these with the tag 7.
const LINES: [&str; 6] = [
    "0 4294967296 0 2 z\n",
    "1 9223372036854775815 0 0 a\n",
    "2 9223372036854775815 1 0 b\n",
    "3 9223372036854775815 2 0 c\n",
    "4 9223372036854775815 3 0 d\n",
    "5 9223372036854775815 6 0 g\n",
];

/// A device with a fault in the second group of its second slot, of which `abcdg` is found.
fn source(rt: &impl Abort, alloc: Global) -> Vec<u8> {
    damaged(rt, alloc, SLOTS[1] + 17 + 1038 + 1, &[255])
}

/// The device of a spool that has one entry.
fn target(rt: &impl Abort, alloc: Global) -> Vec<u8> {
    let mut spool = opened_new(rt, alloc);
    let one = entry_of(rt, alloc, b'z');
    spool.take(&[one]).ok().expect(rt, "a taken entry");
    copied(rt, alloc, spool.into_disk().bytes())
}

/// The spool on the device has its own entry, and then so many of those that are found.
fn has_front(rt: &impl Abort, alloc: Global, device: &[u8], count: usize) -> bool {
    let mut due = String::new(alloc);
    for line in LINES.iter().take(count.saturating_add(1)) {
        due.push_str(line).expect(rt, "memory");
    }
    pending(rt, alloc, device).as_str() == due.as_str()
}

/// A run with the tag 7.
fn run(alloc: Global, from: MemDisk, onto: MemDisk) -> Restored<MemDisk, MemDisk> {
    bridge_restore(alloc, None, 7, from, onto)
}

fn disk_of(rt: &impl Abort, alloc: Global, bytes: &[u8]) -> MemDisk {
    MemDisk::of(copied(rt, alloc, bytes), Vec::new(alloc))
}

/// All that is found is stored; and a second time nothing is.
pub(crate) fn what_is_found_is_stored(rt: &impl Abort, alloc: Global) {
    let (from, onto) = (source(rt, alloc), target(rt, alloc));
    let once = run(alloc, disk_of(rt, alloc, &from), disk_of(rt, alloc, &onto));
    assert!(rt; once.status == 65 && once.stored == 5);
    assert!(rt; once.disk.bytes() == from.as_slice());
    assert!(rt; has_front(rt, alloc, once.target.bytes(), 5));
    let Some(report) = &once.report else {
        panic!(rt; "no report");
    };
    assert!(rt; report.printed == Some(5) && report.sound == 2 && report.gaps.len() == 1);
    let kept = copied(rt, alloc, once.target.bytes());
    let again = run(alloc, disk_of(rt, alloc, &from), disk_of(rt, alloc, &kept));
    assert!(rt; again.status == 79 && again.stored == 0);
    assert!(rt; again.target.bytes() == kept.as_slice());
    let whole = run(
        alloc,
        disk_of(rt, alloc, &device(rt, alloc)),
        disk_of(rt, alloc, &onto),
    );
    assert!(rt; whole.status == 0 && whole.stored == 7);
}

/// A run with a stop of both disks after so many calls, in each way that a crash may leave the other spool. Whether it was stopped.
fn stops(rt: &impl Abort, alloc: Global, of_source: u64, of_target: u64) -> bool {
    let (from, onto) = (source(rt, alloc), target(rt, alloc));
    let mut was_stopped = false;
    for choice in &CRASHES {
        let cut = run(
            alloc,
            MemDisk::stopped(copied(rt, alloc, &from), of_source),
            MemDisk::stopped(copied(rt, alloc, &onto), of_target),
        );
        was_stopped = cut.status != 65 || cut.stored != 5;
        assert!(rt; !was_stopped || cut.status == 73);
        assert!(rt; cut.disk.bytes() == from.as_slice());
        let left = cut.target.crash(*choice);
        let stored = cut.stored as usize;
        assert!(rt;
            has_front(rt, alloc, left.bytes(), stored)
                || (was_stopped && has_front(rt, alloc, left.bytes(), stored.saturating_add(1)))
        );
    }
    was_stopped
}

/// A stop at each call of the first disk, and of the other one.
pub(crate) fn each_stop_leaves_a_front(rt: &impl Abort, alloc: Global) {
    let mut of_source = 0u64;
    for calls in 0..200 {
        if !stops(rt, alloc, calls, ALL) {
            break;
        }
        of_source = calls;
    }
    let mut of_target = 0u64;
    for calls in 0..200 {
        if !stops(rt, alloc, ALL, calls) {
            break;
        }
        of_target = calls;
    }
    assert!(rt; of_source > 5 && of_source < 199);
    assert!(rt; of_target > 15 && of_target < 199);
}

/// Each call of the other disk fails in turn: the status says so, and a front is stored.
pub(crate) fn each_call_fails(rt: &impl Abort, alloc: Global) {
    let (from, onto) = (source(rt, alloc), target(rt, alloc));
    let mut failures = 0u64;
    for call in 0..200u64 {
        let mut failing = Vec::new(alloc);
        failing.push(call).ok().expect(rt, "memory");
        let failed = run(
            alloc,
            disk_of(rt, alloc, &from),
            MemDisk::of(copied(rt, alloc, &onto), failing),
        );
        if failed.status == 65 {
            break;
        }
        failures = call;
        assert!(rt; failed.status == 73, "{call}");
        let left = failed.target.crash(Crash::Written);
        let stored = failed.stored as usize;
        assert!(rt;
            has_front(rt, alloc, left.bytes(), stored)
                || has_front(rt, alloc, left.bytes(), stored.saturating_add(1))
        );
    }
    assert!(rt; failures > 15 && failures < 199);
}
