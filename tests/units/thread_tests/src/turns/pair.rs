//! Two passes at one desk, of whose disk a call may fail.
ghost use Rattle.std.specs.Prelude.{◌≡◌, ℕ, []};
ghost use Rattle.desk_access.specs.declared.division.Division.TheVariants.{Workers};
ghost use Rattle.spool_turns.specs.Named.{IsName};

use crate::desks::{calls_to_open, formatted, named, to_share};
use crate::turns::answers::Row;
use crate::turns::crew::first_conn;
use crate::turns::taking::{entry, take_next};
use desk_access::Access;
use edge_memory::MemDisk;
use spool_answers::{Numbered, PendFault, Receipt, TakeFault};
use spool_desk::Desk;
use spool_turns::{Naming, Opened, Pass, Seated, Shared, Unnamed};
use std::alloc::Global;
use std::fmt::Debug;
use std::marker::Brand;
use std::process::Abort;
use std::sync::Wait;

/// The channel that asks.
pub(crate) const CHANNEL: u128 = 0x0aee_ac95_ac74_4aa9_b30d_6c4c_0ac5_81ba;

/// Adds a line with this answer.
pub(crate) fn say(rt: &impl Abort, said: &mut String, answer: &impl Debug) {
    writeln!(said, "{answer:?}").expect(rt, "memory");
}

/// Adds a line with what a take answered.
pub(crate) fn say_take(rt: &impl Abort, said: &mut String, answer: Result<Receipt, TakeFault>) {
    let written = match answer {
        Ok(Receipt { first, count }) => {
            writeln!(said, "Ok(Receipt {{ first: {first}, count: {count} }})")
        }
        Err(TakeFault::DiskFault) => writeln!(said, "Err(DiskFault)"),
        Err(_) => writeln!(said, "another fault"),
    };
    written.expect(rt, "memory");
}

/// Adds a line for each entry: its number, its connection and its index.
pub(crate) fn say_places(
    rt: &impl Abort,
    said: &mut String,
    given: Result<Vec<Numbered>, PendFault>,
) {
    for Numbered { number, entry } in &given.ok().expect(rt, "the entries") {
        writeln!(said, "{number} {} {}", entry.conn, entry.index).expect(rt, "memory");
    }
}

/// Whether the channel holds the id settled.
pub(crate) fn asked<A: Access>(access: &mut A, id: u64) -> bool {
    let mut known = [true];
    access.ask(CHANNEL, &[id], &mut known);
    known[0]
}

// The first caller takes an entry, and is issued an id, which isn't settled. Returns the id.
fn store_one<A: Access>(rt: &impl Abort, said: &mut String, access: &mut A, conn: u64) -> u64
    requires may { A.may_take access.old conn 0 }
{
    let alloc = *said.allocator();
    let only = entry(alloc, conn, 0).expect(rt, "memory");
    say_take(rt, said, take_next(access, conn, 0, &[only]));
    let id = access.issue(CHANNEL).ok().expect(rt, "an id");
    say(rt, said, &id);
    say(rt, said, &asked(access, id));
    id
}

// The other takes two, and may confirm as before.
fn store_two<A: Access>(rt: &impl Abort, said: &mut String, access: &mut A, conn: u64)
    requires may { A.may_take access.old conn 0 }
    requires confirm { A.may_confirm access.old }

    ensures { A.may_confirm access.new }
{
    let alloc = *said.allocator();
    let first = entry(alloc, conn, 0).expect(rt, "memory");
    let second = entry(alloc, conn, 1).expect(rt, "memory");
    say_take(rt, said, take_next(access, conn, 0, &[first, second]));
}

// The other reads all entries, confirms so many, and asks for the id.
fn read_all<A: Access>(rt: &impl Abort, said: &mut String, access: &mut A, upto: u64, id: u64)
    requires confirm { A.may_confirm access.old }
    requires release { (n : ℕ) → A.may_release n }
{
    say_places(rt, said, access.pending(0, 10));
    let confirmed = access.end() >= upto && access.confirm(upto).is_ok();
    say(rt, said, &confirmed);
    say(rt, said, &asked(access, id));
}

// Two callers, each with its first connection, store and read in turn. The first loads the end at last, and reads what is left.
// A line for each answer.
fn tell<A: Access>(
    rt: &impl Abort,
    said: &mut String,
    zero: &mut A,
    first: u64,
    other: &mut A,
    last: u64,
    upto: u64,
)
    requires first { A.may_take zero.old first 0 }
    requires last { A.may_take other.old last 0 }
    requires confirm { A.may_confirm other.old }
    requires release { (n : ℕ) → A.may_release n }
{
    let id = store_one(rt, said, zero, first);
    store_two(rt, said, other, last);
    read_all(rt, said, other, upto, id);
    say(rt, said, &zero.end());
    say_places(rt, said, zero.pending(0, 10));
}

// The same of two passes at their desk. Returns the passes.
fn in_turn<J: Naming, R: Abort + Wait>(
    rt: &R,
    said: &mut String,
    shared: &Shared<MemDisk, J>,
    first: Pass<J>,
    last: Pass<J>,
    upto: u64,
) -> Vec<Pass<J>>
    requires first { (first.number ≡ 0) × (first.own ≡ []) }
    requires last { (last.number ≡ 1) × (last.own ≡ []) }
    requires seats { 2 ≡ J.seats }
    requires divided { J.run.division ≡ Workers }
{
    let run = shared.run();
    let mut zero = Seated {
        shared,
        pass: first,
        rt,
    };
    let mut other = Seated {
        shared,
        pass: last,
        rt,
    };
    let (first, last) = (first_conn(run, 0), first_conn(run, 1));
    tell(rt, said, &mut zero, first, &mut other, last, upto);
    Vec::from_array(*said.allocator(), [zero.pass, other.pass]).expect(rt, "memory")
}

// The same over a desk with two passes, which is then closed.
fn two_passes<J: Naming, R: Abort + Wait>(
    rt: &R,
    said: &mut String,
    unnamed: Unnamed<MemDisk>,
    group: bool,
    upto: u64,
) -> Desk<MemDisk>
    requires seats { 2 ≡ J.seats }
    requires divided { J.run.division ≡ Workers }
    requires group { group ≡ J.began.grouped }
    requires name { IsName J.table J.run J.start J.began unnamed }
{
    let opened = named::<MemDisk, J, R>(rt, *said.allocator(), unnamed, 2, group);
    let Opened { shared, mut passes } = opened;
    let last = passes.pop().expect(rt, "the second pass");
    let first = passes.pop().expect(rt, "the first pass");
    let passes = in_turn(rt, said, &shared, first, last, upto);
    shared.close(passes)
}

// What two passes are told over this disk, a line for each answer; and what the desk that they leave has, its end, and whether
// that is in doubt.
fn said<R: Abort + Wait>(rt: &R, alloc: Global, disk: MemDisk, group: bool, upto: u64) -> String {
    let mut said = String::new(alloc);
    let unnamed = to_share(rt, alloc, disk);
    let mut desk = two_passes::<Brand, R>(rt, &mut said, unnamed, group, upto);
    writeln!(said, "closed").expect(rt, "memory");
    say_places(rt, &mut said, desk.spool.pending(0, 10));
    say(rt, &mut said, &desk.spool.end());
    say(rt, &mut said, &desk.spool.doubt);
    said
}

/// Two passes are told the answers of the row, where takes may be stored as one group and where they may not.
pub(crate) fn check(rt: &(impl Abort + Wait), alloc: Global, row: &Row, group: bool) {
    let (call, upto, want) = row;
    let bytes = formatted(rt, alloc, 4096).bytes().to_vec(alloc);
    let bytes = bytes.expect(rt, "memory");
    let failing = calls_to_open(rt, alloc, &bytes).saturating_add(*call);
    let failing = [failing].to_vec(alloc).expect(rt, "memory");
    let said = said(rt, alloc, MemDisk::of(bytes, failing), group, *upto);
    assert!(rt; said.as_str() == *want, "call {call}: {said}");
}
