//! Calls of a spool on a disk in memory, and what they answer.
ghost use Rattle.std.specs.Prelude.{◌≡◌, ◌<◌, false, IfOk, All, vec_len};
ghost use Rattle.event_form.specs.Entry.{IsEntry};
ghost use Rattle.spool_answers.specs.Mark.{EndsBy};

use crate::faults::fault_text;
use crate::made::{entry_named, name_of};
use crate::script::Step;
use crate::words::{are, number, numbers, word};
use edge_memory::MemDisk;
use event_form::Entry;
use known_numbers::Stretch;
use spool_answers::{ConfirmFault, Numbered};
use spool_log::{Opening, Refusal, Spool};
use std::alloc::Global;
use std::process::Abort;

/// The opening that a script names so.
pub(crate) fn opening_of(rt: &impl Abort, name: &str) -> Opening {
    match name {
        "keep" => Opening::Keep,
        "raise" => Opening::Raise,
        _ => panic!(rt; "no such opening"),
    }
}

/// The spool on a disk, or why there is none. What its callers need of the contract of opening is little.
pub(crate) fn recovered(
    alloc: Global,
    disk: MemDisk,
    opening: Opening,
) -> Result<Spool<MemDisk>, Refusal<MemDisk>>
    ensures { IfOk result (λ spool. spool.doubt ≡ false) }
{
    Spool::recover(alloc, disk, opening)
}

/// The spool on a disk, which is one.
pub(crate) fn opened(
    rt: &impl Abort,
    alloc: Global,
    disk: MemDisk,
    opening: Opening,
) -> Spool<MemDisk>
    ensures { result.doubt ≡ false }
{
    match recovered(alloc, disk, opening) {
        Ok(spool) => spool,
        Err(_) => panic!(rt; "no spool"),
    }
}

/// The entries that a script names, with a comma between them.
pub(crate) fn group_of(rt: &impl Abort, alloc: Global, spelled: &str) -> Vec<Entry>
    ensures limits { All IsEntry result.items }
    ensures few { vec_len result < 100 }
{
    let mut group = Vec::new(alloc);
    if spelled.is_empty() {
        return group;
    }
    for part in spelled.split(", ") {
        let entry = entry_named(rt, alloc, part);
        group.push(entry).expect(rt, "memory");
    }
    assert!(rt; group.len() < 100);
    group
}

fn say_take(rt: &impl Abort, alloc: Global, spool: &mut Spool<MemDisk>, spelled: &str) -> String {
    let group = group_of(rt, alloc, spelled);
    match spool.take(&group) {
        Ok(receipt) => {
            format!(in alloc; "taken {} {}", receipt.first, receipt.count).expect(rt, "memory")
        }
        Err(fault) => fault_text(rt, alloc, &fault),
    }
}

/// The numbers from one up to and without another, as far as they are below the end.
pub(crate) fn within(from: u64, to: u64, end: u64) -> Stretch
    ensures { EndsBy end result }
{
    let to = to.min(end);
    Stretch {
        from: from.min(to),
        to,
    }
}

fn mark(
    rt: &impl Abort,
    alloc: Global,
    spool: &mut Spool<MemDisk>,
    spelled: &str,
) -> Result<(), ConfirmFault> {
    let end = spool.end();
    if spelled.is_empty() {
        return spool.mark(&[]);
    }
    let ends = numbers(rt, alloc, spelled);
    match ends.as_slice() {
        [from, to] => spool.mark(&[within(*from, *to, end)]),
        [from, to, more, last] => {
            let known = [within(*from, *to, end), within(*more, *last, end)];
            spool.mark(&known)
        }
        _ => panic!(rt; "no stretches"),
    }
}

fn confirm(rt: &impl Abort, spool: &mut Spool<MemDisk>, upto: &str) -> Result<(), ConfirmFault> {
    let upto = number(rt, upto).min(spool.end());
    spool.confirm(upto)
}

fn say_known(rt: &impl Abort, alloc: Global, answer: Result<(), ConfirmFault>) -> String {
    match answer {
        Ok(()) => String::from_str(alloc, "done").expect(rt, "memory"),
        Err(fault) => fault_text(rt, alloc, &fault),
    }
}

/// Makes a change, and says its answer, and whether the spool is in doubt then. `None`: the step is
/// none of these.
///
/// - `take ENTRY, ..`: a group, as [`entry_named`] reads entries; `taken FIRST COUNT` or the fault;
/// - `confirm UPTO`, `mark FROM TO FROM TO`, `mark FROM TO` and `mark`: numbers that become known; `done` or the
///   fault.
pub(crate) fn say_change(
    rt: &impl Abort,
    alloc: Global,
    spool: &mut Spool<MemDisk>,
    name: &str,
    rest: &str,
) -> Option<String> {
    let mut said = match name {
        "take" => say_take(rt, alloc, spool, rest),
        "mark" => say_known(rt, alloc, mark(rt, alloc, spool, rest)),
        "confirm" => say_known(rt, alloc, confirm(rt, spool, rest)),
        _ => return None,
    };
    if spool.doubt() {
        said.push_str(", in doubt").expect(rt, "memory");
    }
    Some(said)
}

/// The entries from a number on that are pending, at most so many.
pub(crate) fn pending_of(
    rt: &impl Abort,
    spool: &mut Spool<MemDisk>,
    from: u64,
    most: u32,
) -> Vec<Numbered> {
    let from = from.min(spool.end());
    spool.pending(from, most).ok().expect(rt, "entries")
}

/// What is pending from a number on, at most so many: the number of each entry, its kind and the length of
/// its text, or `nothing`.
pub(crate) fn say_pending(
    rt: &impl Abort,
    alloc: Global,
    spool: &mut Spool<MemDisk>,
    from: u64,
    most: u32,
) -> String {
    let mut text = String::new(alloc);
    for one in &pending_of(rt, spool, from, most) {
        let comma = if text.is_empty() { "" } else { ", " };
        let name = name_of(&one.entry);
        let len = one.entry.event.text.bytes().len();
        write!(text, "{comma}{} {name} {len}", one.number).expect(rt, "memory");
    }
    if text.is_empty() {
        text.push_str("nothing").expect(rt, "memory");
    }
    text
}

/// These numbers, and the ends of the stretches above the cursor.
pub(crate) fn with_stretches(
    rt: &impl Abort,
    alloc: Global,
    numbers: &[u64],
    known: &[Stretch],
) -> Vec<u64> {
    let mut all = numbers.to_vec(alloc).expect(rt, "memory");
    for one in known {
        all.extend_from_slice(&[one.from, one.to])
            .expect(rt, "memory");
    }
    all
}

// The place of the active slot, and its room.
fn room_of(spool: &Spool<MemDisk>) -> [u64; 2] {
    let memory = &spool.memory;
    let place = memory.active.at.saturating_sub(12_288) / memory.size;
    [place, spool.room()]
}

/// Where the active slot begins and its closing gate stands, the number and the count of its entries, how
/// many other slots are open, and the cursor.
pub(crate) fn slots_of(spool: &Spool<MemDisk>) -> [u64; 6] {
    let active = spool.memory.active;
    let others = spool.memory.older.len() as u64;
    let cursor = spool.cursor();
    [
        active.at,
        active.gate,
        active.first,
        active.count,
        others,
        cursor,
    ]
}

// Whether what is pending is what the step says.
fn pending_is(rt: &impl Abort, alloc: Global, spool: &mut Spool<MemDisk>, step: Step<'_>) -> bool {
    let (from, most) = word(step.rest);
    let from = number(rt, from);
    let most = u32::try_from(number(rt, most)).unwrap_or(u32::MAX);
    say_pending(rt, alloc, spool, from, most).as_str() == step.want
}

// Whether the spool stands as the step says.
fn stands(rt: &impl Abort, alloc: Global, spool: &mut Spool<MemDisk>, step: Step<'_>) -> bool {
    let cursor = spool.cursor();
    match step.name {
        "numbers" => are(step.want, &[spool.base(), cursor, spool.end()]),
        "known" => {
            let all = with_stretches(rt, alloc, &[cursor], spool.known());
            are(step.want, &all)
        }
        "room" => are(step.want, &room_of(spool)),
        "ordinal" => are(step.want, &[spool.memory.register.ordinal()]),
        "slots" => are(step.want, &slots_of(spool)),
        "pending" => pending_is(rt, alloc, spool, step),
        _ => false,
    }
}

/// Makes a change, or looks how the spool stands, and answers whether it is as the step says. The changes are those
/// of [`say_change`]. The others:
///
/// - `numbers`: base, cursor and end; `known`: the cursor and the ends of the stretches above it;
/// - `room`: the place of the active slot and its room; `ordinal`: that of the register;
/// - `slots`: what [`slots_of`] has;
/// - `pending FROM MOST`: what is pending.
pub(crate) fn spool_says(
    rt: &impl Abort,
    alloc: Global,
    spool: &mut Spool<MemDisk>,
    step: Step<'_>,
) -> bool {
    match say_change(rt, alloc, spool, step.name, step.rest) {
        Some(said) => said.as_str() == step.want,
        None => stands(rt, alloc, spool, step),
    }
}
