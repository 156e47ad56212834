//! A pass that makes calls of ids, and asks for the level, while the take of another waits for the disk.
ghost use Rattle.std.specs.Prelude.{◌≡◌, ◌^◌, ◌<◌, ℕ, [], length, All, IfOk, OnOk};
ghost use Rattle.event_form.specs.Entry.{IsEntry};
ghost use Rattle.desk_access.specs.declared.division.Division.TheVariants.{Workers};
ghost use Rattle.desk_access.specs.Batch.{AreNext, AreOfUnit, Belongs};
ghost use Rattle.desk_seats.specs.Passes.{fresh};
ghost use Rattle.spool_turns.specs.Named.{IsName};

use crate::desks::{formatted, named, to_share};
use crate::turns::crew::{Job, first_conn, jobs};
use crate::turns::gate::{Gate, GatedDisk, Mark};
use crate::turns::pair::{CHANNEL, asked, say, say_places, say_take};
use crate::turns::taking::{entry, take_next};
use desk_access::Access;
use edge_disk::Disk;
use edge_memory::MemDisk;
use event_form::Entry;
use spool_answers::{Receipt, TakeFault};
use spool_desk::Desk;
use spool_turns::{Naming, Opened, Pass, Seated, Shared, Unnamed};
use std::alloc::{AllocError, Global};
use std::marker::Brand;
use std::process::Abort;
use std::rt::Clock;
use std::sync::Wait;
use std::thread::{self, Threads, map_vec};
use std::time::Duration;

// The pass with number 0 asks, the take of number 1 is inside a sync, and that of number 2 comes after it.
const SEATS: u32 = 3;

// How long a take that wrongly doesn't wait has to be answered, in milliseconds.
const SHORT_MILLIS: u64 = 50;

// What the three wait for.
#[derive(Drop)]
struct Stage {
    gate: Gate,
    /// The second take begins.
    begun: Mark,
    /// It was answered.
    answered: Mark,
}

// A pass after its calls, and what it was told.
#[derive(Drop)]
struct Worked<J: Naming> {
    pass: Pass<J>,
    told: String,
}

// The first entry of a connection, of that unit.
fn entry_under(alloc: Global, conn: u64, id: u64) -> Result<Entry, AllocError>
    ensures { IfOk result (λ entry. IsEntry entry × (entry.conn ≡ conn) × (entry.index ≡ 0) × (entry.unit ≡ id)) }
{
    let Entry {
        conn,
        index,
        event,
        ..
    } = entry(alloc, conn, 0)?;
    Ok(Entry {
        conn,
        index,
        unit: id,
        event,
    })
}

// Takes some entries, the first ones of their connection, under an id, which may be settled then.
fn take_under<A: Access>(
    access: &mut A,
    conn: u64,
    id: u64,
    entries: &[Entry],
) -> Result<Receipt, TakeFault>
    requires some { 0 < length entries.now }
    requires few { length entries.now < 2 ^ 32 }
    requires limits { All IsEntry entries.now }
    requires next { AreNext conn 0 entries.now }
    requires unit { AreOfUnit id entries.now }
    requires may { A.may_take access.old conn 0 }
    requires issued { A.may_use access.old id }

    ensures stored { OnOk result (A.may_settle access.new id) }
{
    access.take(entries)
}

// Is issued an id, and takes an entry under it. Returns the id.
fn store_under<A: Access, R: Abort>(rt: &R, said: &mut String, access: &mut A, conn: u64) -> u64
    requires may { A.may_take access.old conn 0 }
    ensures stored { A.may_settle access.new result }
{
    let Ok(id) = access.issue(CHANNEL) else {
        panic!(rt; "no id")
    };
    let only = entry_under(*said.allocator(), conn, id).expect(rt, "memory");
    let Ok(receipt) = take_under(access, conn, id, &[only]) else {
        panic!(rt; "a refused take")
    };
    say_take(rt, said, Ok(receipt));
    id
}

// Settles the id and asks for it, is issued another, asks for that, and forgets it.
fn call_of_ids<A: Access, R: Abort>(rt: &R, said: &mut String, access: &mut A, id: u64)
    requires stored { A.may_settle access.old id }
{
    say(rt, said, &access.settle(CHANNEL, id));
    say(rt, said, &asked(access, id));
    let other = access.issue(CHANNEL).ok().expect(rt, "an id");
    say(rt, said, &other);
    say(rt, said, &asked(access, other));
    say(rt, said, &access.forget(CHANNEL, other));
}

// Stores an entry under an id, and shuts the gate. Makes the calls of ids while the first take is inside a sync and the second waits.
fn ask<A: Access, R: Abort + Clock>(
    rt: &R,
    said: &mut String,
    access: &mut A,
    stage: &Stage,
    conn: u64,
)
    requires may { A.may_take access.old conn 0 }
{
    let id = store_under(rt, said, access, conn);
    stage.gate.shut.set();
    assert!(rt;
        stage.gate.reached.comes(rt) && stage.begun.comes(rt),
        "no take waits"
    );
    call_of_ids(rt, said, access, id);
}

// Says the end at the level while the first take is inside a sync. Says then whether the second was answered, opens the gate, and says
// whether the sync went on before that.
fn let_on<D: Disk + Drop, J: Naming, R: Abort + Clock + Wait>(
    rt: &R,
    said: &mut String,
    shared: &Shared<D, J>,
    stage: &Stage,
) {
    say(rt, said, &shared.level(rt).standing.end);
    thread::sleep(rt, Duration::from_millis(SHORT_MILLIS));
    say(rt, said, &stage.answered.is_set());
    stage.gate.open.set();
    say(rt, said, &stage.gate.forced.is_set());
}

// Takes an entry once the gate is shut.
fn take_inside<A: Access, R: Abort + Clock>(
    rt: &R,
    said: &mut String,
    access: &mut A,
    stage: &Stage,
    conn: u64,
)
    requires may { A.may_take access.old conn 0 }
{
    let only = entry(*said.allocator(), conn, 0).expect(rt, "memory");
    assert!(rt; stage.gate.shut.comes(rt), "the gate isn't shut");
    say_take(rt, said, take_next(access, conn, 0, &[only]));
}

// Takes an entry once the other's take is inside a sync.
fn take_after<A: Access, R: Abort + Clock>(
    rt: &R,
    said: &mut String,
    access: &mut A,
    stage: &Stage,
    conn: u64,
)
    requires may { A.may_take access.old conn 0 }
{
    let only = entry(*said.allocator(), conn, 0).expect(rt, "memory");
    assert!(rt; stage.gate.reached.comes(rt), "no take is inside a sync");
    stage.begun.set();
    let answer = take_next(access, conn, 0, &[only]);
    stage.answered.set();
    say_take(rt, said, answer);
}

// The calls of a pass, by the first connection that it has.
fn work<D: Disk + Drop, J: Naming, R: Abort + Clock + Wait>(
    rt: &R,
    alloc: Global,
    shared: &Shared<D, J>,
    stage: &Stage,
    job: Job<J>,
) -> Worked<J>
    requires belongs { Belongs J.run job.pass.number job.conn }
    requires own { job.pass.own ≡ [] }
{
    let mut told = String::new(alloc);
    let (run, conn) = (shared.run(), job.conn);
    let mut seated = Seated {
        shared,
        pass: job.pass,
        rt,
    };
    if conn == first_conn(run, 0) {
        ask(rt, &mut told, &mut seated, stage, conn);
        let_on(rt, &mut told, shared, stage);
    } else if conn == first_conn(run, 1) {
        take_inside(rt, &mut told, &mut seated, stage, conn);
    } else {
        take_after(rt, &mut told, &mut seated, stage, conn);
    }
    let Seated { pass, .. } = seated;
    Worked { pass, told }
}

// Adds what the passes were told, and gives the passes.
fn gathered<J: Naming>(
    rt: &impl Abort,
    said: &mut String,
    workers: Vec<Worked<J>>,
) -> Vec<Pass<J>> {
    let mut passes = Vec::new(*said.allocator());
    for Worked { pass, told } in workers {
        said.push_str(told.as_str()).expect(rt, "memory");
        passes.push(pass).expect(rt, "memory");
    }
    passes
}

// Each of the three works in a thread of its own. Adds what they were told, the one with the greatest number first, and gives the
// passes.
fn crew<D: Disk + Drop + Send, J: Naming + Send + Sync, R: Abort + Clock + Threads + Wait + Sync>(
    rt: &R,
    said: &mut String,
    shared: &Shared<D, J>,
    stage: &Stage,
    passes: Vec<Pass<J>>,
) -> Vec<Pass<J>>
    requires divided { J.run.division ≡ Workers }
    requires fresh { (end : ℕ) × (cursor : ℕ) × (passes.items ≡ fresh 0 3 end cursor) }
{
    let alloc = *said.allocator();
    let jobs = jobs(alloc, passes, shared.run(), SEATS).expect(rt, "memory");
    let workers = map_vec(
        rt,
        jobs,
        &|job: Job<J>| -> Worked<J>
            requires { Belongs J.run job.pass.number job.conn × (job.pass.own ≡ []) }
        { work(rt, alloc, shared, stage, job) },
    );
    gathered(rt, said, workers.expect(rt, "memory"))
}

// The same over a desk under its name, which is then closed.
fn three_passes<'a, J: Naming + Send + Sync, R: Abort + Clock + Threads + Wait + Sync>(
    rt: &'a R,
    said: &mut String,
    stage: &'a Stage,
    unnamed: Unnamed<GatedDisk<'a, MemDisk, R>>,
    group: bool,
) -> Desk<GatedDisk<'a, MemDisk, R>>
    requires seats { 3 ≡ J.seats }
    requires group { group ≡ J.began.grouped }
    requires divided { J.run.division ≡ Workers }
    requires name { IsName J.table J.run J.start J.began unnamed }
{
    let opened = named::<GatedDisk<'a, MemDisk, R>, J, R>(
        rt,
        *said.allocator(),
        unnamed,
        SEATS,
        group,
    );
    let Opened { shared, passes } = opened;
    let passes = crew(rt, said, &shared, stage, passes);
    shared.close(passes)
}

// What the second take answers, and the first. Then what the one that asks is told: its take's receipt, whether its id was held
// unsettled, whether that is told as settled, the next id, whether that is, whether it was held; the end at the level; whether the second
// take was answered by then; and whether the sync went on before the gate was opened. Then the entries of the desk, each with its number,
// connection and index.
const TOLD: &str = "Ok(Receipt { first: 2, count: 1 })
Ok(Receipt { first: 1, count: 1 })
Ok(Receipt { first: 0, count: 1 })
true
true
4294967297
false
true
1
false
false
0 4294967296 0
1 4362076160 0
2 4429185024 0
";

/// While a take is inside a sync of the disk, and another waits, a third caller is issued ids, settles, asks and forgets, reads the level,
/// and has its answers before the sync ends; so with `group` and without. Each thread waits for some ten seconds at most.
pub(crate) fn check<R: Abort + Clock + Threads + Wait + Sync>(rt: &R, alloc: Global, group: bool) {
    let stage = Stage {
        gate: Gate::new(),
        begun: Mark::new(),
        answered: Mark::new(),
    };
    let disk = GatedDisk {
        disk: formatted(rt, alloc, 4096),
        gate: &stage.gate,
        rt,
    };
    let mut said = String::new(alloc);
    let unnamed = to_share(rt, alloc, disk);
    let mut desk = three_passes::<Brand, R>(rt, &mut said, &stage, unnamed, group);
    say_places(rt, &mut said, desk.spool.pending(0, 10));
    assert!(rt; said.as_str() == TOLD, "{said}");
}
