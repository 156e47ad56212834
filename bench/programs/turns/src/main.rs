//! What the lock of a shared desk costs: groups of one entry taken by 1, 4 and 16 threads, beside one thread over a
//! desk that it has alone; where each take is stored by itself, and where those of several threads may be stored as one
//! group. Over a disk in memory, and over the file that the first word names; with no word it does nothing.
#![tactic(auto)]

ghost use Rattle.std.specs.Prelude.{◌≡◌, ◌<◌, ◌≤◌, false, IfOk};
ghost use Rattle.spool_log.specs.Memory.{run_of};
ghost use Rattle.spool_desk.specs.Alone.{HoldsNone};

use anyhow::bail;
use edge_disk::Disk;
use edge_file::FileDisk;
use edge_memory::MemDisk;
use hec_ids::Ids;
use spool_desk::{Alone, Desk};
use spool_log::{Opening, Spool, format};
use std::alloc::Global;
use std::cmp::OrderedFloat;
use std::env;
use std::num::nearest_usize_to_f64;
use std::rt::Clock;
use std::sync::Wait;
use std::thread::Threads;
use std::time::{Duration, Instant};
use thread_tests::{take_many, work_together};

const SLOTS: u32 = 8;

/// How many bytes a slot has.
const SIZE: u64 = 8 << 20;

const LENGTH: u64 = 67_121_152;

/// How many groups are taken over memory, and over a file.
const TAKES: u64 = 400_000;

const FILE_TAKES: u64 = 1_600;

const ROUNDS: usize = 9;

const CREWS: [u32; 3] = [1, 4, 16];

/// Where the disks of the runs come from.
trait Disks {
    type D: Disk + Drop + Send;

    /// The disk of the next run.
    fn make(&self) -> anyhow::Result<Self::D>;
}

#[derive(Drop)]
struct InMemory {
    alloc: Global,
}

impl Disks for InMemory {
    type D = MemDisk;

    fn make(&self) -> anyhow::Result<MemDisk> {
        Ok(MemDisk::plain(self.alloc, LENGTH)?)
    }
}

#[derive(Drop)]
struct InFile<'a> {
    rt: &'a HostRuntime,
    path: &'a str,
}

impl<'a> Disks for InFile<'a> {
    type D = FileDisk;

    fn make(&self) -> anyhow::Result<FileDisk> {
        match FileDisk::make(self.rt, self.path, LENGTH) {
            Ok(disk) => Ok(disk),
            Err(_) => bail!("the file can't be opened"),
        }
    }
}

/// The disk made an empty spool, opened for storing, with no id.
fn desk_on<D: Disk + Drop>(alloc: Global, mut disk: D) -> anyhow::Result<Desk<D>>
    ensures sure { IfOk result (λ desk. desk.spool.doubt ≡ false) }
    ensures ids { IfOk result (λ desk. HoldsNone (run_of desk.spool.memory) desk.ids) }
{
    if format(&mut disk, SLOTS, SIZE).is_err() {
        bail!("no empty spool");
    }
    match Spool::recover(alloc, disk, Opening::Raise) {
        Ok(spool) => {
            let ids = Ids::new(alloc, spool.run(), 0);
            Ok(Desk { spool, ids })
        }
        Err(_) => bail!("the spool was not opened"),
    }
}

/// How long one thread takes, over a desk that it has alone.
fn alone<D: Disk + Drop, R: Clock>(
    rt: &R,
    alloc: Global,
    disk: D,
    takes: u64,
) -> anyhow::Result<Duration> {
    let mut alone = Alone::new(desk_on(alloc, disk)?);
    let start = Instant::now(rt)?;
    let taken = take_many(&mut alone, alloc, 1, takes)?;
    let time = start.elapsed(rt)?;
    if taken != takes {
        bail!("{taken} of {takes} were taken");
    }
    Ok(time)
}

/// How long so many threads take for as many.
fn shared<D: Disk + Drop + Send, R: Threads + Wait + Sync + Clock>(
    rt: &R,
    alloc: Global,
    disk: D,
    takes: u64,
    seats: u32,
    group: bool,
) -> anyhow::Result<Duration>
    requires { (0 < seats) × (seats ≤ 64) }
{
    let desk = desk_on(alloc, disk)?;
    let each = takes / u64::from(seats);
    let start = Instant::now(rt)?;
    let shift = work_together(rt, alloc, desk, seats, group, each)?;
    let time = start.elapsed(rt)?;
    if shift.taken != takes {
        bail!("{} of {takes} were taken", shift.taken);
    }
    Ok(time)
}

/// What the runs of all rounds took.
#[derive(Drop)]
struct Times {
    /// The best of one thread alone.
    own: Duration,
    /// The best of each crew.
    crews: [Duration; 3],
    /// The takes a second of the last crew beside those of one thread, the median of the rounds.
    together: f64,
}

/// One thread alone and each crew, in runs that take turns.
fn rounds<M: Disks, R: Threads + Wait + Sync + Clock>(
    rt: &R,
    alloc: Global,
    disks: &M,
    takes: u64,
    group: bool,
) -> anyhow::Result<Times> {
    let mut own = Duration::MAX;
    let mut crews = [Duration::MAX; 3];
    let mut ratios = [0.0; ROUNDS];
    for ratio in ratios.iter_mut() {
        own = own.min(alone(rt, alloc, disks.make()?, takes)?);
        let mut times = [Duration::MAX; 3];
        for (seats, time) in CREWS.iter().zip(times.iter_mut()) {
            let seats = (*seats).clamp(1, 64);
            *time = shared(rt, alloc, disks.make()?, takes, seats, group)?;
        }
        for (best, time) in crews.iter_mut().zip(times.iter()) {
            *best = (*best).min(*time);
        }
        let [one, _, many] = times;
        *ratio = one.as_secs_f64() / many.as_secs_f64();
    }
    ratios.sort_unstable_by_key(|ratio| OrderedFloat(*ratio));
    Ok(Times {
        own,
        crews,
        together: ratios[ROUNDS / 2],
    })
}

/// Microseconds a take.
fn each(time: Duration, takes: u64) -> f64 {
    time.as_secs_f64() * 1e6 / nearest_usize_to_f64(takes as usize)
}

fn print(
    rt: &HostRuntime,
    what: &str,
    manner: &str,
    takes: u64,
    times: &Times,
) -> anyhow::Result<()> {
    let own = times.own;
    println!(rt; "{what}{manner}: {takes} takes of one entry, the best of {ROUNDS} runs each")?;
    println!(rt; "    alone: {:.3} microseconds a take", each(own, takes))?;
    for (seats, time) in CREWS.iter().zip(times.crews.iter()) {
        println!(rt;
            "    {seats} threads: {:.3} microseconds a take, {:.3} of that alone",
            each(*time, takes),
            time.as_secs_f64() / own.as_secs_f64()
        )?;
    }
    let [one, _, many] = times.crews;
    println!(rt;
        "    the turn, at one thread: {:.0} nanoseconds a take",
        (each(one, takes) - each(own, takes)) * 1e3
    )?;
    println!(rt;
        "    16 threads together: {:.3} of the takes a second of one; in the rounds, their median, {:.3}",
        one.as_secs_f64() / many.as_secs_f64(),
        times.together
    )?;
    Ok(())
}

fn main(rt: HostRuntime) -> anyhow::Result<()> {
    let mut words = env::args(&rt)?.skip(1);
    let Some(path) = words.next() else {
        return Ok(());
    };
    let alloc = rt.alloc();
    let memory = InMemory { alloc };
    let file = InFile {
        rt: &rt,
        path: path.as_str(),
    };
    for (group, manner) in [(false, ""), (true, ", in groups")] {
        let times = rounds(&rt, alloc, &memory, TAKES, group)?;
        print(&rt, "memory", manner, TAKES, &times)?;
        let times = rounds(&rt, alloc, &file, FILE_TAKES, group)?;
        print(&rt, "a file", manner, FILE_TAKES, &times)?;
    }
    Ok(())
}
