//! Takes of a caller.
ghost use Rattle.std.specs.Prelude.{◌≡◌, ◌+◌, ◌^◌, ◌<◌, [], ◌∷◌, length, All, IfOk, OnOk};
ghost use Rattle.event_form.specs.Entry.{IsEntry};
ghost use Rattle.desk_access.specs.Call.{takes};
ghost use Rattle.desk_access.specs.Batch.{AreNext, IsPlain};

use desk_access::Access;
use event_form::{Blob, Entry, Event, Origin};
use spool_answers::{Receipt, TakeFault};
use std::alloc::{AllocError, Global};

/// An entry with a text of one byte, of that index of the connection.
pub fn entry(alloc: Global, conn: u64, index: u64) -> Result<Entry, AllocError>
    ensures { IfOk result (λ entry. IsEntry entry × (entry.conn ≡ conn) × (entry.index ≡ index) × IsPlain entry) }
{
    let text = Vec::from_slice(alloc, b"a")?;
    Ok(Entry {
        conn,
        index,
        unit: 1,
        event: Event {
            origin: Origin::Relp,
            text: Blob::of(text),
        },
    })
}

/// Takes some entries, the next ones of their connection.
pub(crate) fn take_next<A: Access>(
    access: &mut A,
    conn: u64,
    index: u64,
    entries: &[Entry],
) -> Result<Receipt, TakeFault>
    requires few { length entries.now < 2 ^ 32 }
    requires limits { All IsEntry entries.now }
    requires next { AreNext conn index entries.now }
    requires plain { All IsPlain entries.now }
    requires may { A.may_take access.old conn index }

    ensures ran { A.ran access.old (takes entries.now result ∷ []) access.new }
    ensures next { OnOk result (A.may_take access.new conn (index + length entries.now)) }
{
    access.take(entries)
}

/// Takes so many groups of one entry, and reports how many were taken before one was refused.
pub fn take_many<A: Access>(
    access: &mut A,
    alloc: Global,
    conn: u64,
    count: u64,
) -> Result<u64, AllocError>
    requires may { A.may_take access.old conn 0 }
{
    for index in 0..count {
        let entry = entry(alloc, conn, index)?;
        if take_next(access, conn, index, &[entry]).is_err() {
            return Ok(index);
        }
    }
    Ok(count)
}
