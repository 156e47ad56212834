//! The first of some entries taken as one group, with answers worked out by hand.
use crate::calls::group_of;
use crate::desk::desks::opened;
use crate::faults::fault_text;
use crate::script::{Step, step_of};
use crate::words::number;
use desk_access::{Access, Front};
use edge_memory::MemDisk;
use spool_answers::TakeFault;
use spool_desk::Alone;
use std::alloc::Global;
use std::process::Abort;

/// An empty slot of 4,096 bytes has room for 4,078. A group needs 9 bytes, and each entry 29 and its text. Both slots are
/// filled, so that no slot is free in the end.
pub(crate) const FRONTS: &str = "- both fit
fits 7 2 2000, 7 3 2003 = 2
fits 7 2 2000, 7 3 2011 = 2
- the second doesn't
fits 7 2 2000, 7 3 2012 = 1
fits 7 2 2000, 7 3 2012, 7 4 1 = 1
fits 7 2 2000, 7 3 1000, 7 4 1000 = 2
- the first alone needs more than an empty slot has
fits 7 2 5000, 7 3 1 = 1
front 7 2 5000, 7 3 1 = 1 TooLarge { need: 5038, most: 4078 }
front 7 2 5, 7 3 5000 = 1 taken 0 1
- 4,035 bytes are free
fits 7 2 2000, 7 3 1968 = 2
fits 7 2 2000, 7 3 1969 = 1
front 7 2 2000, 7 3 1968, 7 4 1 = 2 taken 1 2
- a slot is begun where the first doesn't fit
fits 7 2 2060, 7 3 5 = 1
front 7 2 2060, 7 3 5 = 1 taken 3 1
front 7 2 1000, 7 3 2000 = 1 taken 4 1
- 942 bytes are free, and no slot
front 7 2 2000, 7 3 5 = 1 Full { need: 2038, room: 942 }
front 7 2 5, 7 3 2000 = 1 taken 5 1";

// What came of a take of the first of the entries that a script names.
fn taken(rt: &impl Abort, alloc: Global, alone: &mut Alone<MemDisk>, spelled: &str) -> Front {
    let entries = group_of(rt, alloc, spelled);
    let many = entries.len();
    if many == 0 {
        panic!(rt; "no entries");
    }
    let front = alone.take_front(entries);
    assert!(rt; front.entries.len() == many);
    front
}

// How many of the entries that a script names fit.
fn fits(rt: &impl Abort, alloc: Global, alone: &Alone<MemDisk>, spelled: &str) -> u64 {
    let entries = group_of(rt, alloc, spelled);
    if entries.is_empty() {
        panic!(rt; "no entries");
    }
    alone.fitting(&entries) as u64
}

// Whether so many of the entries that a step names fit, or that came of a take of the first of them.
fn says(rt: &impl Abort, alloc: Global, alone: &mut Alone<MemDisk>, step: Step<'_>) -> bool {
    if step.name == "fits" {
        return fits(rt, alloc, alone, step.rest) == number(rt, step.want);
    }
    let front = taken(rt, alloc, alone, step.rest);
    let count = front.count;
    let said = match front.answer {
        Ok(receipt) => {
            let (first, taken) = (receipt.first, receipt.count);
            format!(in alloc; "{count} taken {first} {taken}").expect(rt, "memory")
        }
        Err(fault) => {
            let fault = fault_text(rt, alloc, &fault);
            format!(in alloc; "{count} {fault}").expect(rt, "memory")
        }
    };
    said.as_str() == step.want
}

/// Takes fronts on a new desk, each with what it answers after ` = `.
pub(crate) fn run_fronts(rt: &impl Abort, alloc: Global, script: &str) {
    // No call of this number is made.
    let mut alone = opened(rt, alloc, u64::MAX).expect(rt, "a desk");
    for line in script.split('\n') {
        let step = step_of(line);
        assert!(rt;
            step.name == "-" || says(rt, alloc, &mut alone, step),
            "{line}"
        );
    }
}

// Whether a front of two failed where this call of the disk fails. In doubt the next front has one entry.
fn doubts(rt: &impl Abort, alloc: Global, failing: u64) -> bool {
    let Some(mut alone) = opened(rt, alloc, failing) else {
        return false;
    };
    let front = taken(rt, alloc, &mut alone, "7 2 5, 7 3 5");
    if front.answer != Err(TakeFault::DiskFault) {
        assert!(rt; front.count == 2);
        return false;
    }
    let next = taken(rt, alloc, &mut alone, "7 4 5, 7 5 5");
    assert!(rt; front.count == 2 && next.count == 1 && next.answer.is_ok());
    let last = taken(rt, alloc, &mut alone, "7 5 5, 7 6 5");
    last.count == 2 && last.answer.is_ok()
}

/// Whether a front is one entry while the spool is in doubt, and two before and after.
pub(crate) fn a_doubt_is_mended_by_one_entry(rt: &impl Abort, alloc: Global) -> bool {
    let mut failed = 0_u32;
    for failing in 0..40 {
        if doubts(rt, alloc, failing) {
            failed = failed.saturating_add(1);
        }
    }
    // A take makes a write, a sync, the gate and a sync.
    failed == 4
}
