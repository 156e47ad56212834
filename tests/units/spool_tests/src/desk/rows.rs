//! Calls of a desk, with answers worked out by hand.
use crate::calls::within;
use crate::desk::desks::{entry, opened};
use crate::script::{Step, step_of};
use crate::words::{are, number, word};
use desk_access::Access;
use edge_memory::MemDisk;
use spool_desk::Alone;
use std::alloc::Global;
use std::process::Abort;

// The channels that ask.
const CHANNEL: u128 = 0x0aee_ac95_ac74_4aa9_b30d_6c4c_0ac5_81ba;

const OTHER: u128 = 0x14a3_bf8b_5e7d_46e1_a1a0_3a7b_7b5f_6c20;

/// Groups and an id that isn't settled, then entries confirmed. The first ids of run 1 are 4294967296 and
/// 4294967297.
pub(crate) const ENTRIES: &str = "end = 0
one 2 = 0 1
two 3 = 1 2
issue ours = 4294967296
ask ours 4294967296 = no
pending 0 = 0 1 2
end = 3
confirm 2 = done
pending 0 = 2
end = 3";

/// Numbers that become known out of order.
pub(crate) const KNOWN: &str = "two 2 = 0 2
two 3 = 2 2
mark 1 3 = done
count = 2
pending 0 = 0 3
pending 1 = 3
mark 0 1 = done
count = 0
pending 0 = 3
confirm 4 = done
pending 0 = none";

/// An id is told true once, by its own channel, when its group was taken and it was settled.
pub(crate) const IDS: &str = "issue ours = 4294967296
two 4294967296 = 0 2
ask ours 4294967296 = no
settle other 4294967296 = no
settle ours 4294967296 = yes
ask other 4294967296 = no
ask ours 4294967296 = yes
ask ours 4294967296 = no
issue other = 4294967297
forget ours 4294967297 = no
forget other 4294967297 = yes
settle other 4294967297 = no";

// Whether the numbers of the entries from a number on are these, or `none`.
fn finds(
    rt: &impl Abort,
    alloc: Global,
    alone: &mut Alone<MemDisk>,
    from: u64,
    want: &str,
) -> bool {
    let from = from.min(alone.end());
    let given = alone.pending(from, 10).ok().expect(rt, "entries");
    let mut numbers = Vec::new(alloc);
    for one in &given {
        numbers.push(one.number).expect(rt, "memory");
    }
    if given.is_empty() {
        return want == "none";
    }
    are(want, &numbers)
}

fn asked(alone: &mut Alone<MemDisk>, channel: u128, id: u64) -> bool {
    let mut known = [true];
    alone.ask(channel, &[id], &mut known);
    known[0]
}

// Whether the id was as it was asked.
fn tells(rt: &impl Abort, alone: &mut Alone<MemDisk>, name: &str, channel: u128, id: u64) -> bool {
    match name {
        "settle" => alone.settle(channel, id),
        "forget" => alone.forget(channel, id),
        "ask" => asked(alone, channel, id),
        _ => panic!(rt; "no such step"),
    }
}

// Whether an id is issued, or was as it was asked, as the step says.
fn id_says(rt: &impl Abort, alone: &mut Alone<MemDisk>, step: Step<'_>) -> bool {
    let (name, id) = word(step.rest);
    let channel = match name {
        "ours" => CHANNEL,
        "other" => OTHER,
        _ => panic!(rt; "no such channel"),
    };
    if step.name == "issue" {
        let id = alone.issue(channel).ok().expect(rt, "an id");
        return are(step.want, &[id]);
    }
    let told = tells(rt, alone, step.name, channel, number(rt, id));
    step.want == if told { "yes" } else { "no" }
}

// Takes a group of one entry of a unit, or of two.
fn takes(
    rt: &impl Abort,
    alloc: Global,
    alone: &mut Alone<MemDisk>,
    unit: u64,
    second: bool,
) -> [u64; 2] {
    let one = entry(rt, alloc, 7, 0, unit);
    let answer = if second {
        alone.take(&[one, entry(rt, alloc, 7, 1, unit)])
    } else {
        alone.take(&[one])
    };
    let receipt = answer.ok().expect(rt, "a receipt");
    [receipt.first, receipt.count]
}

// Marks a stretch as known, or all below a number.
fn knows(rt: &impl Abort, alone: &mut Alone<MemDisk>, step: Step<'_>) -> bool {
    let end = alone.end();
    let (first, more) = word(step.rest);
    let answer = if step.name == "mark" {
        alone.mark(&[within(number(rt, first), number(rt, more), end)])
    } else {
        alone.confirm(number(rt, step.rest).min(end))
    };
    answer.is_ok() && step.want == "done"
}

// Makes a call, and answers whether that is answered as the step says:
//
// - `one UNIT` and `two UNIT`: a group of so many entries; the first number and the count;
// - `pending FROM`: the numbers of the first entries found, or none; `confirm UPTO` and `mark FROM TO`: `done`;
// - `count` and `end`: how many stretches are known, and the end;
// - `issue CHANNEL`: an id; `settle CHANNEL ID`, `forget CHANNEL ID` and `ask CHANNEL ID`: whether the id was as it
//   was asked.
fn desk_says(rt: &impl Abort, alloc: Global, alone: &mut Alone<MemDisk>, step: Step<'_>) -> bool {
    let (rest, want) = (step.rest, step.want);
    match step.name {
        "one" => are(want, &takes(rt, alloc, alone, number(rt, rest), false)),
        "two" => are(want, &takes(rt, alloc, alone, number(rt, rest), true)),
        "pending" => finds(rt, alloc, alone, number(rt, rest), want),
        "confirm" | "mark" => knows(rt, alone, step),
        "count" => are(want, &[alone.known_count() as u64]),
        "end" => are(want, &[alone.end()]),
        _ => id_says(rt, alone, step),
    }
}

/// Makes the calls of a script on a new desk, each with what it answers after ` = `.
pub(crate) fn run_desk(rt: &impl Abort, alloc: Global, script: &str) {
    // No call of this number is made.
    let mut alone = opened(rt, alloc, u64::MAX).expect(rt, "a desk");
    assert!(rt; alone.run() == 1);
    for line in script.split('\n') {
        assert!(rt; desk_says(rt, alloc, &mut alone, step_of(line)), "{line}");
    }
}
