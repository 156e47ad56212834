//! Many passes that take in threads of their own, and one that makes other calls meanwhile: what each was told.
ghost use Rattle.std.specs.Prelude.{◌≡◌, ℕ, [], true};
ghost use Rattle.desk_access.specs.declared.division.Division.TheVariants.{Workers};
ghost use Rattle.desk_access.specs.Batch.{Belongs};
ghost use Rattle.desk_seats.specs.Passes.{fresh};
ghost use Rattle.spool_turns.specs.Named.{IsName};

use crate::desks::{formatted, named, to_share};
use crate::turns::crew::{Job, first_conn, jobs};
use crate::turns::taking::{entry, take_next};
use desk_access::Access;
use edge_memory::MemDisk;
use spool_answers::Numbered;
use spool_desk::Desk;
use spool_turns::{Naming, Opened, Pass, Seated, Shared, Unnamed};
use std::alloc::{AllocError, Global};
use std::marker::Brand;
use std::process::Abort;
use std::sync::Wait;
use std::thread::{Threads, map_vec};

// How many passes there are, and how many groups each takes but the last one, which makes other calls.
const SEATS: u32 = 64;

const TAKES: u64 = 1000;

// The numbers that the entries of a connection were given, in order.
#[derive(Drop)]
struct Told {
    conn: u64,
    numbers: Vec<u64>,
}

// A pass after its calls, and what it was told.
#[derive(Drop)]
struct Worked<J: Naming> {
    pass: Pass<J>,
    told: Result<Told, AllocError>,
}

// Takes so many groups of one entry, until one is refused.
fn take_told<A: Access>(
    access: &mut A,
    alloc: Global,
    conn: u64,
    count: u64,
) -> Result<Told, AllocError>
    requires may { A.may_take access.old conn 0 }
{
    let mut numbers = Vec::new(alloc);
    for index in 0..count {
        let entry = entry(alloc, conn, index)?;
        match take_next(access, conn, index, &[entry]) {
            Ok(receipt) => numbers.push(receipt.first)?,
            Err(_) => return Ok(Told { conn, numbers }),
        }
    }
    Ok(Told { conn, numbers })
}

// Is issued ids and asks for them, counts and reads, so many times.
fn look_around<A: Access>(
    access: &mut A,
    alloc: Global,
    conn: u64,
    count: u64,
) -> Result<Told, AllocError> {
    for _ in 0..count {
        let Ok(id) = access.issue(1) else {
            break;
        };
        access.ask(1, &[id], &mut [false]);
        access.forget(1, id);
        access.known_count();
        let _ = access.pending(0, 1);
    }
    Ok(Told {
        conn,
        numbers: Vec::new(alloc),
    })
}

// The job of a pass: to take, or to look around where its connection is the last.
fn work<J: Naming, R: Wait>(
    rt: &R,
    alloc: Global,
    shared: &Shared<MemDisk, J>,
    job: Job<J>,
    last: u64,
) -> Worked<J>
    requires belongs { Belongs J.run job.pass.number job.conn }
    requires own { job.pass.own ≡ [] }
{
    let conn = job.conn;
    let mut seated = Seated {
        shared,
        pass: job.pass,
        rt,
    };
    let told = if conn == last {
        look_around(&mut seated, alloc, conn, TAKES)
    } else {
        take_told(&mut seated, alloc, conn, TAKES)
    };
    let Seated { pass, .. } = seated;
    Worked { pass, told }
}

// What the passes were told, and the passes.
fn gathered<J: Naming>(
    alloc: Global,
    workers: Vec<Worked<J>>,
) -> Result<(Vec<Told>, Vec<Pass<J>>), AllocError> {
    let mut all = Vec::new(alloc);
    let mut passes = Vec::new(alloc);
    for Worked { pass, told } in workers {
        all.push(told?)?;
        passes.push(pass)?;
    }
    Ok((all, passes))
}

// Each of new passes works in a thread of its own. Returns what they were told, and the passes.
fn crowd<J: Naming + Send + Sync, R: Threads + Wait + Sync>(
    rt: &R,
    alloc: Global,
    shared: &Shared<MemDisk, J>,
    passes: Vec<Pass<J>>,
) -> Result<(Vec<Told>, Vec<Pass<J>>), AllocError>
    requires divided { J.run.division ≡ Workers }
    requires fresh { (end : ℕ) × (cursor : ℕ) × (passes.items ≡ fresh 0 64 end cursor) }
{
    let last = first_conn(shared.run(), SEATS - 1);
    let jobs = jobs(alloc, passes, shared.run(), SEATS)?;
    let workers = map_vec(
        rt,
        jobs,
        &|job: Job<J>| -> Worked<J>
            requires { Belongs J.run job.pass.number job.conn × (job.pass.own ≡ []) }
        { work(rt, alloc, shared, job, last) },
    )?;
    gathered(alloc, workers)
}

// The same over a desk under its name, which is then closed.
fn crowded<J: Naming + Send + Sync, R: Abort + Threads + Wait + Sync>(
    rt: &R,
    alloc: Global,
    unnamed: Unnamed<MemDisk>,
) -> (Vec<Told>, Desk<MemDisk>)
    requires seats { 64 ≡ J.seats }
    requires group { true ≡ J.began.grouped }
    requires divided { J.run.division ≡ Workers }
    requires name { IsName J.table J.run J.start J.began unnamed }
{
    let opened = named::<MemDisk, J, R>(rt, alloc, unnamed, SEATS, true);
    let Opened { shared, passes } = opened;
    let worked = crowd(rt, alloc, &shared, passes);
    let (told, passes) = worked.expect(rt, "memory");
    (told, shared.close(passes))
}

// Whether the entries that were told to stand at these numbers stand there, the first with index 0, and so on.
fn are_there(told: &Told, entries: &[Numbered]) -> bool {
    for (index, number) in told.numbers.iter().enumerate() {
        let Some(there) = entries.get(*number as usize) else {
            return false;
        };
        if there.number != *number
            || there.entry.conn != told.conn
            || there.entry.index != index as u64
        {
            return false;
        }
    }
    true
}

/// Each of many passes was told for each of its takes where its entry stands, in order, while another made other calls; and the desk
/// that they leave has no other entries.
pub(crate) fn check<R: Abort + Threads + Wait + Sync>(rt: &R, alloc: Global) {
    let unnamed = to_share(rt, alloc, formatted(rt, alloc, 4_000_000));
    let (told, mut desk) = crowded::<Brand, R>(rt, alloc, unnamed);
    let end = desk.spool.end();
    assert!(rt; end == u64::from(SEATS - 1) * TAKES, "{end} entries");
    let entries = desk.spool.pending(0, 100_000).ok();
    let entries = entries.expect(rt, "the entries");
    let mut taking: u32 = 0;
    for one in &told {
        assert!(rt; are_there(one, &entries), "connection {}", one.conn);
        if one.numbers.len() as u64 == TAKES {
            taking = taking.saturating_add(1);
        }
    }
    assert!(rt; taking == SEATS - 1, "{taking} passes took all");
}
