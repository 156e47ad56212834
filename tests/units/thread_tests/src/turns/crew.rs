//! Passes that take in threads of their own.
ghost use Rattle.std.specs.Prelude.{◌≡◌, ◌+◌, ◌*◌, ◌≤◌, ℕ, [], false, All, IfOk};
ghost use Rattle.desk_access.specs.declared.division.Division.TheVariants.{Workers};
ghost use Rattle.desk_access.specs.Division.{divided};
ghost use Rattle.spool_log.specs.Memory.{run_of};
ghost use Rattle.spool_desk.specs.Alone.{HoldsNone};
ghost use Rattle.desk_access.specs.Batch.{Belongs};
ghost use Rattle.desk_seats.specs.Passes.{fresh};
ghost use Rattle.spool_turns.specs.Named.{IsName};

use crate::turns::taking::take_many;
use desk_access::Division;
use edge_disk::Disk;
use spool_desk::Desk;
use spool_turns::{Naming, Opened, Pass, Seated, Shared, Unnamed};
use std::alloc::{AllocError, Global};
use std::marker::Brand;
use std::sync::Wait;
use std::thread::{Threads, map_vec};

/// How far the connections of one pass are from those of the next.
pub(crate) const CONNS: u64 = 67_108_864;

/// How far those of one run are from those of the next.
pub(crate) const RUNS: u64 = 4_294_967_296;

/// What passes did together, and the desk that they left.
#[derive(Drop)]
pub struct Shift<D: Disk> {
    /// How many groups they took.
    pub taken: u64,
    pub desk: Desk<D>,
}

/// A pass that made no call, and its first connection.
#[derive(Drop)]
pub(crate) struct Job<J: Naming> {
    pub(crate) pass: Pass<J>,
    pub(crate) conn: u64,
}

// A pass after its takes, and how many they were.
#[derive(Drop)]
struct Worked<J: Naming> {
    pass: Pass<J>,
    taken: Result<u64, AllocError>,
}

/// What each pass is to do, the one with the greatest number first.
pub(crate) fn jobs<J: Naming>(
    alloc: Global,
    mut passes: Vec<Pass<J>>,
    run: u32,
    seats: u32,
) -> Result<Vec<Job<J>>, AllocError>
    requires run { (run ≡ J.run.number) × (J.run.division ≡ Workers) }
    requires few { seats ≤ 64 }
    requires fresh { (end : ℕ) × (cursor : ℕ) × (passes.items ≡ fresh 0 seats end cursor) }

    ensures { IfOk result (λ jobs.
        All (λ (job : _). Belongs J.run job.pass.number job.conn × (job.pass.own ≡ [])) jobs.items) }
{
    let mut jobs = Vec::with_capacity(alloc, seats as usize)?;
    for popped in 0..seats {
        let Some(pass) = passes.pop() else {
            break;
        };
        let conn = first_conn(run, seats - 1 - popped);
        jobs.push_reserved(Job { pass, conn });
    }
    Ok(jobs)
}

/// The first connection of the pass of that number.
pub(crate) fn first_conn(run: u32, number: u32) -> u64
    requires few { number ≤ 63 }
    ensures belongs { Belongs (divided Workers run) number result }
{
    u64::from(run) * RUNS + u64::from(number) * CONNS
}

// How many groups were taken, and the passes after their takes.
fn gathered<J: Naming>(
    alloc: Global,
    workers: Vec<Worked<J>>,
) -> Result<(u64, Vec<Pass<J>>), AllocError> {
    let mut passes = Vec::with_capacity(alloc, workers.len())?;
    let mut taken: u64 = 0;
    for Worked {
        pass,
        taken: groups,
    } in workers {
        passes.push(pass)?;
        taken = taken.saturating_add(groups?);
    }
    Ok((taken, passes))
}

// Each of new passes takes in a thread of its own. Returns how many groups they took, and the passes.
fn crew<D: Disk + Drop + Send, J: Naming + Send + Sync, R: Threads + Wait + Sync>(
    rt: &R,
    alloc: Global,
    shared: &Shared<D, J>,
    passes: Vec<Pass<J>>,
    seats: u32,
    takes: u64,
) -> Result<(u64, Vec<Pass<J>>), AllocError>
    requires few { seats ≤ 64 }
    requires divided { J.run.division ≡ Workers }
    requires fresh { (end : ℕ) × (cursor : ℕ) × (passes.items ≡ fresh 0 seats end cursor) }
{
    let jobs = jobs(alloc, passes, shared.run(), seats)?;
    let workers = map_vec(
        rt,
        jobs,
        &|job: Job<J>| -> Worked<J>
            requires { Belongs J.run job.pass.number job.conn × (job.pass.own ≡ []) }
        {
            let mut seated = Seated {
                shared,
                pass: job.pass,
                rt,
            };
            let taken = take_many(&mut seated, alloc, job.conn, takes);
            let Seated { pass, .. } = seated;
            Worked { pass, taken }
        },
    )?;
    gathered(alloc, workers)
}

// The same over a desk under its name, which is then closed.
fn work_shift<D: Disk + Drop + Send, J: Naming + Send + Sync, R: Threads + Wait + Sync>(
    rt: &R,
    alloc: Global,
    unnamed: Unnamed<D>,
    seats: u32,
    group: bool,
    takes: u64,
) -> Result<Shift<D>, AllocError>
    requires seats { seats ≡ J.seats }
    requires few { seats ≤ 64 }
    requires group { group ≡ J.began.grouped }
    requires divided { J.run.division ≡ Workers }
    requires name { IsName J.table J.run J.start J.began unnamed }
{
    let Ok(opened) = unnamed.named::<J>(alloc, seats, group, Division::Workers) else {
        return Err(AllocError);
    };
    let Opened { shared, passes } = opened;
    let (taken, passes) = crew(rt, alloc, &shared, passes, seats, takes)?;
    Ok(Shift {
        taken,
        desk: shared.close(passes),
    })
}

/// So many passes share the desk, at most 64, and each takes so many groups of one entry in a thread of its own. With `group` takes of
/// several passes may be stored as one group.
pub fn work_together<D: Disk + Drop + Send, R: Threads + Wait + Sync>(
    rt: &R,
    alloc: Global,
    desk: Desk<D>,
    seats: u32,
    group: bool,
    takes: u64,
) -> Result<Shift<D>, AllocError>
    requires sure { desk.spool.doubt ≡ false }
    requires ids { HoldsNone (run_of desk.spool.memory) desk.ids }
    requires few { seats ≤ 64 }
{
    let unnamed = Unnamed::new(alloc, desk).ok().ok_or(AllocError)?;
    work_shift::<D, Brand, R>(rt, alloc, unnamed, seats, group, takes)
}
