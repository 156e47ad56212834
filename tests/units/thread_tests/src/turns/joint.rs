//! Two passes that hand in before either collects: their takes are stored as one group.
ghost use Rattle.std.specs.Prelude.{◌≡◌, [], ◌∷◌, true};
ghost use Rattle.desk_access.specs.declared.division.Division.TheVariants.{Workers};
ghost use Rattle.event_form.specs.Entry.{IsEntry};
ghost use Rattle.desk_access.specs.Batch.{IsPlain};
ghost use Rattle.desk_access.specs.Legal.{IsNext};
ghost use Rattle.spool_turns.specs.Named.{IsName};

use crate::desks::{calls_to_open, formatted, named, to_share};
use crate::turns::crew::first_conn;
use crate::turns::pair::{say, say_places, say_take};
use edge_memory::MemDisk;
use event_form::{Blob, Entry, Event, Origin};
use spool_desk::Desk;
use spool_slots::{Slot, Window};
use spool_turns::{Away, Naming, Opened, Pass, Shared, Unnamed};
use std::alloc::Global;
use std::marker::Brand;
use std::process::Abort;
use std::sync::Wait;

// The first entry of a connection, with a text of five bytes. It takes 34 bytes of a group.
fn first_entry(rt: &impl Abort, alloc: Global, conn: u64) -> Entry
    ensures { IsEntry result × (result.conn ≡ conn) × (result.index ≡ 0) × IsPlain result }
{
    let text = Vec::from_slice(alloc, b"hello").expect(rt, "memory");
    Entry {
        conn,
        index: 0,
        unit: 1,
        event: Event {
            origin: Origin::Relp,
            text: Blob::of(text),
        },
    }
}

// The entry by itself.
fn only(rt: &impl Abort, alloc: Global, entry: Entry) -> Vec<Entry>
    ensures { result.items ≡ entry ∷ [] }
{
    Vec::from_array(alloc, [entry]).expect(rt, "memory")
}

// A pass hands in the first entry of its connection.
fn hands_in<J: Naming, R: Abort + Wait>(
    rt: &R,
    alloc: Global,
    shared: &Shared<MemDisk, J>,
    pass: Pass<J>,
    conn: u64,
) -> Away<J>
    requires group { J.began.grouped ≡ true }
    requires next { IsNext J.run pass.number pass.own conn 0 }
{
    let entry = first_entry(rt, alloc, conn);
    let entries = only(rt, alloc, entry);
    shared.hand_in(rt, pass, entries)
}

// Both hand in, and then each collects. A line for each answer, and for each entry that the first then reads.
fn tell<J: Naming, R: Abort + Wait>(
    rt: &R,
    said: &mut String,
    shared: &Shared<MemDisk, J>,
    first: Pass<J>,
    last: Pass<J>,
) -> Vec<Pass<J>>
    requires group { J.began.grouped ≡ true }
    requires divided { J.run.division ≡ Workers }
    requires first { (first.number ≡ 0) × (first.own ≡ []) }
    requires last { (last.number ≡ 1) × (last.own ≡ []) }
{
    let alloc = *said.allocator();
    let run = shared.run();
    let first = hands_in(rt, alloc, shared, first, first_conn(run, 0));
    let last = hands_in(rt, alloc, shared, last, first_conn(run, 1));
    let (mut first, told) = shared.collect(rt, first);
    say_take(rt, said, told.answer);
    let (last, told) = shared.collect(rt, last);
    say_take(rt, said, told.answer);
    say_places(rt, said, shared.pending(rt, &mut first, 0, 10));
    Vec::from_array(alloc, [first, last]).expect(rt, "memory")
}

// The same over a desk with two passes, which is then closed.
fn two_passes<J: Naming, R: Abort + Wait>(
    rt: &R,
    said: &mut String,
    unnamed: Unnamed<MemDisk>,
) -> Desk<MemDisk>
    requires seats { 2 ≡ J.seats }
    requires group { true ≡ J.began.grouped }
    requires divided { J.run.division ≡ Workers }
    requires name { IsName J.table J.run J.start J.began unnamed }
{
    let opened = named::<MemDisk, J, R>(rt, *said.allocator(), unnamed, 2, true);
    let Opened { shared, mut passes } = opened;
    let last = passes.pop().expect(rt, "the second pass");
    let first = passes.pop().expect(rt, "the first pass");
    let passes = tell(rt, said, &shared, first, last);
    shared.close(passes)
}

// Adds a line with where the first slot's last gate stands, and how many entries it has.
fn say_slot(rt: &impl Abort, said: &mut String, bytes: &[u8]) {
    let alloc = *said.allocator();
    let bytes = bytes.to_vec(alloc).expect(rt, "memory");
    let mut disk = MemDisk::of(bytes, Vec::new(alloc));
    assert!(rt;
        disk.bytes().len() >= 12_288 + 4_096,
        "the device has two slots"
    );
    let mut window = Window::new(alloc).expect(rt, "memory");
    let found = Slot::scan(&mut disk, &mut window, 12_288, 4_096).ok();
    let slot = found.expect(rt, "the slot").expect(rt, "an open slot");
    writeln!(said, "gate {} count {}", slot.gate, slot.count).expect(rt, "memory");
}

// What two passes are told over this disk, and what the desk that they leave has: a line for its end, for whether that is in doubt,
// and for its first slot.
fn said<R: Abort + Wait>(rt: &R, alloc: Global, disk: MemDisk) -> String {
    let mut said = String::new(alloc);
    let unnamed = to_share(rt, alloc, disk);
    let desk = two_passes::<Brand, R>(rt, &mut said, unnamed);
    say(rt, &mut said, &desk.spool.end());
    say(rt, &mut said, &desk.spool.doubt);
    say_slot(rt, &mut said, desk.spool.disk.bytes());
    said
}

// Both are stored, with one head of 9 bytes behind the slot's 17: 17 + 9 + 34 + 34.
const BOTH: &str = "Ok(Receipt { first: 0, count: 1 })
Ok(Receipt { first: 1, count: 1 })
0 4294967296 0
1 4362076160 0
2
false
gate 94 count 2
";

// Both failed, and neither is there.
const NEITHER: &str = "Err(DiskFault)
Err(DiskFault)
0
false
gate 17 count 0
";

// Both failed, and both are there.
const STILL_BOTH: &str = "Err(DiskFault)
Err(DiskFault)
0 4294967296 0
1 4362076160 0
2
false
gate 94 count 2
";

/// Which call of the disk fails, counted from 0 after the opening, and what is said. One group takes four calls: it is written with its
/// gate closed, synced, its gate opened, and synced. So no row has one entry without the other.
pub(crate) const ROWS: [(u64, &str); 5] = [
    (0, NEITHER),
    (1, NEITHER),
    (2, NEITHER),
    (3, STILL_BOTH),
    (1000, BOTH),
];

/// Two passes are told what the row has.
pub(crate) fn check(rt: &(impl Abort + Wait), alloc: Global, row: &(u64, &str)) {
    let (call, want) = row;
    let bytes = formatted(rt, alloc, 4096).bytes().to_vec(alloc);
    let bytes = bytes.expect(rt, "memory");
    let failing = calls_to_open(rt, alloc, &bytes).saturating_add(*call);
    let failing = [failing].to_vec(alloc).expect(rt, "memory");
    let said = said(rt, alloc, MemDisk::of(bytes, failing));
    assert!(rt; said.as_str() == *want, "call {call}: {said}");
}
