//! Writes that fail, calls of the disk that fail, and a stop at each of these.
use crate::answers::{LINE, THREE};
use crate::spools::{copied, device, disk_of, pending, skip};
use edge_memory::{Crash, MemDisk};
use std::alloc::Global;
use std::process::Abort;

/// What a crash may do.
const CRASHES: [Crash; 3] = [Crash::Synced, Crash::Written, Crash::Filled(1)];

// What is pending before and after.
const BEFORE: &str = "0 1 2 ";

const AFTER: &str = "0 2 ";

/// A line that isn't written: nothing is changed.
pub(crate) fn a_line_fails(rt: &impl Abort, alloc: Global) {
    let bytes = device(rt, alloc, &THREE);
    let cut = skip(rt, alloc, 1, disk_of(rt, alloc, &bytes, &[]), &[0]);
    assert!(rt; cut.status == 72 && cut.printed.is_empty());
    assert!(rt; cut.disk.bytes() == bytes.as_slice());
}

/// Each call of the disk fails in turn. A number that is known then was printed; and the same words end as ones of which no call failed,
/// unless it is.
pub(crate) fn each_call_fails(rt: &impl Abort, alloc: Global) {
    let bytes = device(rt, alloc, &THREE);
    let mut failures = 0u64;
    let mut after_line = 0u64;
    for call in 0..100u64 {
        let first = skip(rt, alloc, 1, disk_of(rt, alloc, &bytes, &[call]), &[]);
        if first.status == 0 {
            break;
        }
        failures = call.saturating_add(1);
        assert!(rt; first.status == 73, "{call}");
        let is_whole = first.printed.as_slice() == LINE;
        assert!(rt; is_whole || first.printed.is_empty(), "{call}");
        if is_whole {
            after_line = after_line.saturating_add(1);
        }
        let left = copied(rt, alloc, first.disk.bytes());
        let was_left = pending(rt, alloc, &left);
        assert!(rt;
            was_left.as_str() == BEFORE || is_whole && was_left.as_str() == AFTER,
            "{call}"
        );
        let again = skip(rt, alloc, 1, disk_of(rt, alloc, &left, &[]), &[]);
        let due = if was_left.as_str() == BEFORE { 0 } else { 79 };
        assert!(rt; again.status == due, "{call}");
    }
    // Some failed before the line, and each of the register's after it.
    assert!(rt; failures > 8 && failures < 99 && after_line >= 4);
}

/// A stop after so many calls, in each way that a crash may leave the disk. What it leaves is a spool in which the number is pending, or it
/// was printed; all others are pending.
pub(crate) fn each_stop_is_clean(rt: &impl Abort, alloc: Global) {
    let bytes = device(rt, alloc, &THREE);
    let mut stops = 0u64;
    let mut known = 0u64;
    for calls in 0..100u64 {
        let mut was_stopped = false;
        for crash in &CRASHES {
            let disk = MemDisk::stopped(copied(rt, alloc, &bytes), calls);
            let cut = skip(rt, alloc, 1, disk, &[]);
            was_stopped = cut.status != 0;
            let is_whole = cut.printed.as_slice() == LINE;
            let left = pending(rt, alloc, cut.disk.crash(*crash).bytes());
            assert!(rt;
                left.as_str() == BEFORE || is_whole && left.as_str() == AFTER,
                "{calls}"
            );
            if was_stopped && left.as_str() == AFTER {
                known = known.saturating_add(1);
            }
        }
        if !was_stopped {
            break;
        }
        stops = calls.saturating_add(1);
    }
    assert!(rt; stops > 8 && stops < 99 && known > 0);
}
