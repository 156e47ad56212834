//! Code that knows its caller's bound alone, and what its contract gives over one desk.
ghost use Rattle.std.specs.Prelude.{◌≡◌, ◌⊎◌, ℕ, ◌+◌, ◌^◌, ◌<◌, List, [], ◌∷◌, length, All, Ok, IfOk, IfSome, MatchResult};
ghost use Rattle.event_form.specs.Entry.{IsEntry};
ghost use Rattle.spool_state.specs.SpoolState.{SpoolState};
ghost use Rattle.spool_state.specs.Image.{StandsFor};
ghost use Rattle.edge_memory.specs.MemDisk.{mem_moment};
ghost use Rattle.spool_answers.specs.declared.receipt.Receipt.{Receipt as TheReceipt};
ghost use Rattle.desk_access.specs.Call.{takes, issues, settles};
ghost use Rattle.desk_access.specs.Batch.{AreNext, IsPlain, AreOfUnit};
ghost use Rattle.desk_access.specs.Desk.{DeskState};
ghost use Rattle.desk_access.specs.History.{AreKept};
ghost use Rattle.spool_desk.specs.Alone.{alone_at, IsAt};

use desk_access::Access;
use edge_memory::MemDisk;
use event_form::Entry;
use spool_answers::{Receipt, TakeFault};
use spool_desk::Alone;

// Takes two groups of one connection, of which the first entry has this index.
fn take_both<A: Access>(
    access: &mut A,
    first: &[Entry],
    second: &[Entry],
    conn: u64,
    index: u64,
) -> Result<(Receipt, Receipt), TakeFault>
    requires few { (length first.now < 2 ^ 32) × (length second.now < 2 ^ 32) }
    requires limits { All IsEntry first.now × All IsEntry second.now }
    requires next { AreNext conn index first.now × AreNext conn (index + length first.now) second.now }
    requires plain { All IsPlain first.now × All IsPlain second.now }
    requires may { A.may_take access.old conn index }

    ensures { MatchResult result
        (λ both. A.ran access.old (takes first.now (Ok both.0) ∷ takes second.now (Ok both.1) ∷ []) access.new)
        (λ fault. A.ran access.old (takes first.now (Err fault) ∷ []) access.new
        ⊎ ((receipt : TheReceipt) × A.ran access.old (takes first.now (Ok receipt) ∷ takes second.now (Err fault) ∷ []) access.new)) }
{
    let one = access.take(first)?;
    let two = access.take(second)?;
    Ok((one, two))
}

// An id of the channel, as which a group may be taken.
fn issued<A: Access>(access: &mut A, channel: u128) -> Option<u64>
    ensures { IfSome result (λ id. A.ran access.old (issues channel (Ok id) ∷ []) access.new × A.may_use access.new id) }
{
    access.issue(channel).ok()
}

// Takes the group of an id, and settles the id.
fn store<A: Access>(
    access: &mut A,
    channel: u128,
    id: u64,
    entries: &[Entry],
    conn: u64,
    index: u64,
) -> Result<bool, TakeFault>
    requires some { 0 < length entries.now }
    requires few { length entries.now < 2 ^ 32 }
    requires limits { All IsEntry entries.now }
    requires next { AreNext conn index entries.now }
    requires units { AreOfUnit id entries.now }
    requires may { A.may_take access.old conn index }
    requires may_use { A.may_use access.old id }

    ensures { IfOk result (λ settled. (receipt : TheReceipt) × A.ran access.old (takes entries.now (Ok receipt) ∷ settles channel id settled ∷ []) access.new) }
{
    access.take(entries)?;
    Ok(access.settle(channel, id))
}

// After both takes whatever a crash leaves stands for a spool that has both groups, or has entries of them below its cursor.
fn take_both_alone(
    alone: &mut Alone<MemDisk>,
    first: &[Entry],
    second: &[Entry],
    conn: u64,
    index: u64,
) -> Result<(Receipt, Receipt), TakeFault>
    requires few { (length first.now < 2 ^ 32) × (length second.now < 2 ^ 32) }
    requires limits { All IsEntry first.now × All IsEntry second.now }
    requires next { AreNext conn index first.now × AreNext conn (index + length first.now) second.now }
    requires plain { All IsPlain first.now × All IsPlain second.now }

    ensures { IfOk result (λ both. (x : DeskState) → IsAt x (alone_at alone.old)
        → (c : List ℕ) → (mem_moment alone.new.desk.spool.disk).image c
        → (t : SpoolState) × StandsFor t c × AreKept t both.0.first first.now × AreKept t both.1.first second.now) }
{
    take_both(alone, first, second, conn, index)
}
