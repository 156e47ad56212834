//! Threads at one desk.
ghost use Rattle.std.specs.Prelude.{◌≤◌};

use crate::desks::{formatted, opened};
use crate::turns::crew::{CONNS, RUNS};
use crate::turns::work_together;
use spool_answers::Numbered;
use std::alloc::Global;
use std::process::Abort;
use std::sync::Wait;
use std::thread::Threads;

// How many groups each thread takes.
const TAKES: u64 = 1000;

// How many entries each pass has among these, where each connection's are in order and none is of another.
fn in_order(run: u32, given: &[Numbered]) -> Option<[u64; 8]> {
    let mut counts = [0_u64; 8];
    for (number, numbered) in given.iter().enumerate() {
        let conn = numbered.entry.conn.checked_sub(u64::from(run) * RUNS)?;
        let count = counts.get_mut((conn / CONNS) as usize)?;
        if conn % CONNS != 0 || numbered.entry.index != *count || numbered.number != number as u64 {
            return None;
        }
        *count = count.saturating_add(1);
    }
    Some(counts)
}

/// How many passes there are, and how many entries the desk that they leave has of each.
pub(crate) const ROWS: [(u32, [u64; 8]); 2] = [
    (2, [1000, 1000, 0, 0, 0, 0, 0, 0]),
    (8, [1000, 1000, 1000, 1000, 1000, 1000, 1000, 1000]),
];

/// Whether so many passes, each in a thread of its own, take all that they are to, and the desk that they leave has these
/// entries of each.
pub(crate) fn have_taken<R: Abort + Threads + Wait + Sync>(
    rt: &R,
    alloc: Global,
    seats: u32,
    group: bool,
    counts: [u64; 8],
) -> bool
    requires { seats ≤ 64 }
{
    let desk = opened(rt, alloc, formatted(rt, alloc, 1_000_000));
    let mut shift = work_together(rt, alloc, desk, seats, group, TAKES).expect(rt, "memory");
    let spool = &mut shift.desk.spool;
    let end = spool.end();
    let given = spool.pending(0, 10_000).ok().expect(rt, "the entries");
    shift.taken == u64::from(seats) * TAKES
        && end == shift.taken
        && in_order(spool.run(), &given) == Some(counts)
}
