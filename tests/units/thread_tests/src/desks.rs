//! Desks over a spool in memory.
ghost use Rattle.std.specs.Prelude.{◌≡◌, ◌^◌, ◌≤◌, false};
ghost use Rattle.desk_access.specs.declared.division.Division.TheVariants.{Workers};
ghost use Rattle.spool_answers.specs.Leave.{LetsKeep};
ghost use Rattle.spool_log.specs.Memory.{run_of};
ghost use Rattle.spool_desk.specs.Alone.{HoldsNone};
ghost use Rattle.desk_seats.specs.Passes.{fresh};
ghost use Rattle.spool_turns.specs.Named.{IsName};

use desk_access::Division;
use edge_disk::Disk;
use edge_memory::MemDisk;
use hec_ids::Ids;
use spool_desk::Desk;
use spool_log::{Opening, Spool, format};
use spool_turns::{Naming, Opened, Unnamed};
use std::alloc::Global;
use std::process::Abort;

/// A disk with an empty spool of two slots of that size. It keeps no record of what a crash may leave.
pub(crate) fn formatted(rt: &impl Abort, alloc: Global, slot: u64) -> MemDisk
    requires { (4096 ≤ slot) × (slot ≤ 2 ^ 30) }
{
    let mut disk = MemDisk::plain(alloc, 12_288 + 2 * slot).expect(rt, "memory");
    format(&mut disk, 2, slot).ok().expect(rt, "an empty spool");
    disk
}

/// The desk of the spool on a disk, opened for storing, with no id.
pub(crate) fn opened<D: Disk + Drop>(rt: &impl Abort, alloc: Global, disk: D) -> Desk<D>
    requires leave { LetsKeep D.tells D.moment D.may_tear D.may_release }

    ensures sure { result.spool.doubt ≡ false }
    ensures ids { HoldsNone (run_of result.spool.memory) result.ids }
{
    let spool = Spool::recover(alloc, disk, Opening::Raise).ok();
    let spool = spool.expect(rt, "a spool");
    let ids = Ids::new(alloc, spool.run(), 0);
    Desk { spool, ids }
}

/// The same desk, which is to be shared.
pub(crate) fn to_share<D: Disk + Drop>(rt: &impl Abort, alloc: Global, disk: D) -> Unnamed<D>
    requires leave { LetsKeep D.tells D.moment D.may_tear D.may_release }
{
    let unnamed = Unnamed::new(alloc, opened(rt, alloc, disk)).ok();
    unnamed.expect(rt, "memory")
}

/// That desk under its name, with so many passes. With `group` takes of several of them may be stored as one group.
pub(crate) fn named<D: Disk + Drop, J: Naming, R: Abort>(
    rt: &R,
    alloc: Global,
    unnamed: Unnamed<D>,
    seats: u32,
    group: bool,
) -> Opened<D, J>
    requires seats { seats ≡ J.seats }
    requires group { group ≡ J.began.grouped }
    requires divided { J.run.division ≡ Workers }
    requires name { IsName J.table J.run J.start J.began unnamed }

    ensures { result.passes.items ≡ fresh 0 seats unnamed.alone.end_told unnamed.alone.cursor_told }
{
    let opened = unnamed
        .named::<J>(alloc, seats, group, Division::Workers)
        .ok();
    opened.expect(rt, "memory")
}

// Whether an opening of these bytes for storing passes where so many calls of the disk pass, and all later ones fail.
fn opens(rt: &impl Abort, alloc: Global, bytes: &[u8], calls: u64) -> bool {
    let bytes = bytes.to_vec(alloc).expect(rt, "memory");
    Spool::recover(alloc, MemDisk::stopped(bytes, calls), Opening::Raise).is_ok()
}

/// How many calls of the disk an opening of these bytes for storing makes.
pub(crate) fn calls_to_open(rt: &impl Abort, alloc: Global, bytes: &[u8]) -> u64 {
    for calls in 0..100 {
        if opens(rt, alloc, bytes, calls) {
            return calls;
        }
    }
    panic!(rt; "no spool")
}
