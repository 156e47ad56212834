//! Runs that are stopped at each call of either disk, crashed, and begun again.
use crate::answers::{BOTH_MOVED, empty, source};
use crate::spools::{copied, disk_of, opened, pending, run};
use edge_memory::{Crash, MemDisk};
use spool_move::MoveFault;
use std::alloc::Global;
use std::process::Abort;

/// What a crash may do to the source and to the target.
const CRASHES: [(Crash, Crash); 7] = [
    (Crash::Synced, Crash::Synced),
    (Crash::Written, Crash::Written),
    (Crash::Synced, Crash::Written),
    (Crash::Written, Crash::Synced),
    (Crash::Filled(0), Crash::Filled(0)),
    (Crash::Filled(1), Crash::Filled(1)),
    (Crash::Filled(255), Crash::Filled(255)),
];

/// More calls than a run makes.
const ALL: u64 = 10_000;

/// The devices that a run begins with.
#[derive(Drop)]
struct Pair {
    source: Vec<u8>,
    target: Vec<u8>,
}

/// How often the spool on a device has an event with this text pending.
fn times(rt: &impl Abort, alloc: Global, device: &[u8], text: &[u8]) -> u64 {
    let mut spool = opened(rt, alloc, disk_of(rt, alloc, device));
    let mut times = 0u64;
    for one in &spool.pending(0, 1000).ok().expect(rt, "entries") {
        if one.entry.event.text.bytes() == text {
            times = times.saturating_add(1);
        }
    }
    times
}

/// Each entry stands in one of the two at least, and in neither twice; then another run ends as one that was never stopped.
fn goes_on(rt: &impl Abort, alloc: Global, source: &MemDisk, target: &MemDisk) {
    let texts: [&[u8]; 2] = [b"hello", b"x"];
    for text in &texts {
        let left = times(rt, alloc, source.bytes(), text);
        let moved = times(rt, alloc, target.bytes(), text);
        assert!(rt; left <= 1 && moved <= 1 && left.saturating_add(moved) >= 1);
    }
    let again = run(
        alloc,
        disk_of(rt, alloc, source.bytes()),
        disk_of(rt, alloc, target.bytes()),
        7,
    );
    assert!(rt; again.answer.is_ok());
    assert!(rt; pending(rt, alloc, again.source.bytes()).as_str() == "");
    assert!(rt; pending(rt, alloc, again.target.bytes()).as_str() == BOTH_MOVED);
}

/// A run with a stop of both disks after so many calls, in each way that a crash may leave them. Whether it was stopped.
fn stops(rt: &impl Abort, alloc: Global, from: &Pair, of_source: u64, of_target: u64) -> bool {
    let mut was_stopped = false;
    for (choice, other) in &CRASHES {
        let cut = run(
            alloc,
            MemDisk::stopped(copied(rt, alloc, &from.source), of_source),
            MemDisk::stopped(copied(rt, alloc, &from.target), of_target),
            7,
        );
        was_stopped = cut.answer != Ok(2);
        let is_fault = cut.answer == Err(MoveFault::SourceFault)
            || cut.answer == Err(MoveFault::TargetFault);
        assert!(rt; is_fault == was_stopped);
        goes_on(
            rt,
            alloc,
            &cut.source.crash(*choice),
            &cut.target.crash(*other),
        );
    }
    was_stopped
}

/// A stop at each call of the source's disk, and of the target's.
pub(crate) fn each_stop_goes_on(rt: &impl Abort, alloc: Global) {
    let from = Pair {
        source: source(rt, alloc),
        target: empty(rt, alloc),
    };
    let mut of_source = 0u64;
    for calls in 0..200 {
        if !stops(rt, alloc, &from, calls, ALL) {
            break;
        }
        of_source = calls;
    }
    let mut of_target = 0u64;
    for calls in 0..200 {
        if !stops(rt, alloc, &from, ALL, calls) {
            break;
        }
        of_target = calls;
    }
    // Both were stopped within an opening, the reading, a take and the register's write.
    assert!(rt; of_source > 8 && of_source < 199);
    assert!(rt; of_target > 8 && of_target < 199);
}

/// A run that is stopped again and again, a call later each time, ends in the end.
pub(crate) fn stopped_again_and_again(rt: &impl Abort, alloc: Global) {
    let mut from = source(rt, alloc);
    let mut onto = empty(rt, alloc);
    for calls in 0..200 {
        let cut = run(
            alloc,
            MemDisk::stopped(copied(rt, alloc, &from), calls),
            MemDisk::stopped(copied(rt, alloc, &onto), calls),
            7,
        );
        let done = cut.answer.is_ok();
        from = copied(rt, alloc, cut.source.crash(Crash::Written).bytes());
        onto = copied(rt, alloc, cut.target.crash(Crash::Synced).bytes());
        if done {
            assert!(rt; pending(rt, alloc, &from).as_str() == "");
            assert!(rt; pending(rt, alloc, &onto).as_str() == BOTH_MOVED);
            return;
        }
    }
    panic!(rt; "no run ends")
}
