//! Desks and entries, for the tests.
ghost use Rattle.std.specs.Prelude.{◌≡◌, false};
ghost use Rattle.event_form.specs.Entry.{IsEntry};

use crate::calls::recovered;
use crate::made::entry_with;
use crate::play::plain;
use crate::words::copied;
use edge_memory::MemDisk;
use event_form::{Entry, Origin};
use hec_ids::Ids;
use spool_desk::{Alone, Desk};
use spool_log::{Opening, Spool};
use std::alloc::Global;
use std::process::Abort;

/// An event of the collector with the text `a`.
pub(crate) fn entry(rt: &impl Abort, alloc: Global, conn: u64, index: u64, unit: u64) -> Entry
    ensures { IsEntry result }
{
    let text = copied(rt, alloc, b"a");
    entry_with(rt, conn, index, unit, Origin::HecEvent, text)
}

/// A desk over an empty spool of two slots, opened for storing, of whose disk this call fails, counted from 0. `None`:
/// the spool isn't opened.
pub(crate) fn opened(rt: &impl Abort, alloc: Global, failing: u64) -> Option<Alone<MemDisk>> {
    let bytes = copied(rt, alloc, plain(rt, alloc, 2, 4096).bytes());
    let numbers = [failing].to_vec(alloc).expect(rt, "memory");
    match recovered(alloc, MemDisk::of(bytes, numbers), Opening::Raise) {
        Ok(spool) => Some(desk_over(alloc, spool)),
        Err(_) => None,
    }
}

/// The desk of a spool, with no id.
pub(crate) fn desk_over(alloc: Global, spool: Spool<MemDisk>) -> Alone<MemDisk>
    requires { spool.doubt ≡ false }
{
    let ids = Ids::new(alloc, spool.run(), 0);
    Alone::new(Desk { spool, ids })
}
