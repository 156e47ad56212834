//! Calls of the disk that fail, and what a crash leaves after them.
use crate::calls;
use crate::desk::desks::{desk_over, entry, opened};
use desk_access::Access;
use edge_memory::{Crash, MemDisk};
use spool_answers::{Receipt, TakeFault};
use spool_desk::{Alone, Desk};
use spool_log::Opening;
use std::alloc::Global;
use std::process::Abort;

// The indexes of the first entries that aren't known as confirmed, 100 and more for none.
fn indexes(alone: &mut Alone<MemDisk>) -> [u64; 4] {
    let mut found = [100, 101, 102, 103];
    if let Ok(given) = alone.pending(0, 4) {
        for (place, one) in found.iter_mut().zip(given.iter()) {
            *place = one.entry.index;
        }
    }
    found
}

// The indexes that a new desk finds on what a crash leaves.
fn after_crash(rt: &impl Abort, alloc: Global, alone: Alone<MemDisk>, choice: Crash) -> [u64; 4] {
    let Desk { spool, .. } = alone.into_desk();
    let left = spool.into_disk().crash(choice);
    let spool = calls::opened(rt, alloc, left, Opening::Keep);
    indexes(&mut desk_over(alloc, spool))
}

// Whether two takes that were answered so may have left these entries. Of a take that failed the whole group is found, or nothing.
fn may_stand(
    one: Result<Receipt, TakeFault>,
    two: Result<Receipt, TakeFault>,
    left: [u64; 4],
) -> bool {
    match (one, two) {
        (Ok(_), Ok(receipt)) => receipt.first == 1 && left == [0, 1, 102, 103],
        (Ok(_), Err(fault)) => {
            fault == TakeFault::DiskFault
                && (left == [0, 101, 102, 103] || left == [0, 1, 102, 103])
        }
        (Err(_), Ok(receipt)) => {
            (receipt.first == 0 && left == [1, 101, 102, 103])
                || (receipt.first == 1 && left == [0, 1, 102, 103])
        }
        (Err(_), Err(_)) => false,
    }
}

// Takes two groups.
fn take_two(
    rt: &impl Abort,
    alloc: Global,
    alone: &mut Alone<MemDisk>,
) -> (Result<Receipt, TakeFault>, Result<Receipt, TakeFault>) {
    let first = [entry(rt, alloc, 7, 0, 2)];
    let second = [entry(rt, alloc, 7, 1, 3)];
    let one = alone.take(&first);
    (one, alone.take(&second))
}

// Whether a take failed where this call of the disk fails. What was taken has to stand after a crash.
fn take_fails(rt: &impl Abort, alloc: Global, failing: u64, choice: Crash) -> bool {
    let Some(mut alone) = opened(rt, alloc, failing) else {
        return false;
    };
    let (one, two) = take_two(rt, alloc, &mut alone);
    let left = after_crash(rt, alloc, alone, choice);
    assert!(rt; may_stand(one, two, left));
    one.is_err() || two.is_err()
}

/// Whether what was taken stands after a crash, whichever call of the disk fails.
pub(crate) fn what_was_taken_stands_whichever_call_fails(rt: &impl Abort, alloc: Global) -> bool {
    let mut failed = 0_u32;
    for failing in 0..40 {
        for choice in &[Crash::Synced, Crash::Written, Crash::Filled(1)] {
            if take_fails(rt, alloc, failing, *choice) {
                failed = failed.saturating_add(1);
            }
        }
    }
    // Each take makes a write, a sync, the gate and a sync.
    failed == 24
}
