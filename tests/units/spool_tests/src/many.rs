//! Many calls of one spool.
use crate::calls::{pending_of, say_change};
use crate::script::Step;
use crate::words::{are, number, word};
use edge_memory::MemDisk;
use spool_log::Spool;
use std::alloc::Global;
use std::process::Abort;

// The change of this number.
fn change_at(rt: &impl Abort, alloc: Global, name: &str, number: u64) -> String {
    let odd = number.saturating_mul(2).saturating_add(1);
    match name {
        "singles" => format!(in alloc; "take relp {number}").expect(rt, "memory"),
        "pairs" => String::from_str(alloc, "take relp 0, relp 1").expect(rt, "memory"),
        _ => format!(in alloc; "mark {odd} {}", odd.saturating_add(1)).expect(rt, "memory"),
    }
}

// How the change of this number is answered.
fn answer_at(rt: &impl Abort, alloc: Global, name: &str, number: u64) -> String {
    let (first, count) = match name {
        "singles" => (number, 1),
        "pairs" => (number.saturating_mul(2), 2),
        _ => return String::from_str(alloc, "done").expect(rt, "memory"),
    };
    format!(in alloc; "taken {first} {count}").expect(rt, "memory")
}

// Whether so many changes are all answered so.
fn makes(
    rt: &impl Abort,
    alloc: Global,
    spool: &mut Spool<MemDisk>,
    name: &str,
    count: u64,
) -> bool {
    for number in 0..count {
        let change = change_at(rt, alloc, name, number);
        let (step, rest) = word(change.as_str());
        let said = say_change(rt, alloc, spool, step, rest);
        if said != Some(answer_at(rt, alloc, name, number)) {
            return false;
        }
    }
    true
}

// The cursor, how many stretches there are, the end of the last one, and how many entries are pending.
fn counts(rt: &impl Abort, spool: &mut Spool<MemDisk>) -> [u64; 4] {
    let pending = pending_of(rt, spool, 0, 2000).len() as u64;
    let known = spool.known();
    let last = match known.last() {
        Some(one) => one.to,
        None => 0,
    };
    [spool.cursor(), known.len() as u64, last, pending]
}

/// Makes many changes, or counts what they leave. `None`: the step is none of these.
///
/// - `singles COUNT`: so many events, whose texts have 0, 1, 2 .. bytes; `pairs COUNT`: so many groups of two
///   events. Both are numbered from 0;
/// - `odd COUNT`: so many of the first odd numbers are marked one after another;
/// - `counts`: the cursor, how many stretches there are, the end of the last one, and how many entries are pending.
pub(crate) fn makes_many(
    rt: &impl Abort,
    alloc: Global,
    spool: &mut Spool<MemDisk>,
    step: Step<'_>,
) -> Option<bool> {
    match step.name {
        "singles" | "pairs" | "odd" => {
            let count = number(rt, step.rest);
            Some(makes(rt, alloc, spool, step.name, count))
        }
        "counts" => Some(are(step.want, &counts(rt, spool))),
        _ => None,
    }
}
