//! Workers, each at its door.
ghost use Rattle.edge_io.specs.MemLink.{IsUnused};

use crate::workers::alone::Served;
use crate::workers::door::TestDoor;
use crate::workers::harness::served;
use crate::workers::rows::{Case, DOORS, LINKS, Link, STARVED, STEP};
use conn_serve::Rules;
use edge_io::{Door, Finished, MemDoor, MemLink, MemSink, MemSource};
use edge_memory::MemDisk;
use hec_tokens::TokenList;
use serve_workers::{Post, WorkerEnd, WorkerReport};
use spool_answers::Numbered;
use std::alloc::Global;
use std::process::Abort;
use std::sync::Wait;
use std::thread::Threads;

// The collector's token.
const TOKEN: u128 = 0x1111_1111_2222_3333_4444_5555_5555_5555;

// The number of the first connection of the first opening, and how far those of one worker are from the next one's.
const RUN: u64 = 4_294_967_296;

const WORKER: u64 = 67_108_864;

// A link that gives these bytes, and was not used yet.
fn link(rt: &impl Abort, alloc: Global, input: &[u8]) -> MemLink
    ensures { IsUnused result }
{
    let input = input.to_vec(alloc).expect(rt, "memory");
    let source = MemSource::of(input, STEP, Vec::new(alloc));
    MemLink::of(source, MemSink::of(alloc, Vec::new(alloc)))
}

// A place for a worker at that door, at which its links wait.
fn post(rt: &impl Abort, alloc: Global, door: usize, failing: &[u64]) -> Post<TestDoor> {
    let mut links = Vec::new(alloc);
    for row in &LINKS {
        if row.door == door {
            links.push(link(rt, alloc, row.input)).expect(rt, "memory");
        }
    }
    let failing = if door == 0 { failing } else { &[] };
    let failing = failing.to_vec(alloc).expect(rt, "memory");
    let rules = Rules {
        proto: DOORS[door % 4],
        token: Some(TOKEN),
        ack_token: None,
        listed: TokenList::none(),
        group: false,
    };
    let door = TestDoor {
        door: MemDoor::of(alloc, links, failing),
        starved: door == STARVED,
    };
    Post { door, rules }
}

// The entries of a connection, as a row has them.
fn shown(rt: &impl Abort, alloc: Global, entries: &[Numbered], conn: u64) -> String {
    let mut out = String::new(alloc);
    for Numbered { entry, .. } in entries {
        if entry.conn == conn {
            let text = str::from_utf8(entry.event.text.bytes()).expect(rt, "a text");
            writeln!(out, "{} {} {text}", entry.index, entry.unit).expect(rt, "memory");
        }
    }
    out
}

// Whether a door tells of a link what is due.
fn is_told(talk: &Finished, row: &Link, conn: u64) -> bool {
    let read = row.input.len().saturating_sub(row.left);
    talk.proto == DOORS[row.door % 4]
        && talk.conn == conn
        && talk.read.as_slice() == &row.input[..read]
        && talk.written.as_slice() == row.written
        && talk.status == row.status
        && talk.left == row.left as u64
}

// Whether these are the first links of that door as they are due, served by the worker of that number, and the spool has their entries.
fn are_served(
    rt: &impl Abort,
    alloc: Global,
    door: usize,
    worker: usize,
    talks: &[Finished],
    entries: &[Numbered],
) -> bool {
    let mut told: usize = 0;
    for row in &LINKS {
        if row.door != door {
            continue;
        }
        let Some(talk) = talks.get(told) else {
            break;
        };
        let conn = RUN + (worker % 64) as u64 * WORKER + told as u64 % WORKER;
        if !is_told(talk, row, conn) || shown(rt, alloc, entries, conn).as_str() != row.entries {
            return false;
        }
        told = told.saturating_add(1);
    }
    told == talks.len()
}

// How many links still wait at a door, where no more accepts fail.
fn waiting(door: &mut MemDoor) -> usize {
    let mut many: usize = 0;
    for _ in 0..10 {
        if !matches!(door.accept(0), Ok(Some(_))) {
            break;
        }
        many = many.saturating_add(1);
    }
    many
}

// How a worker ended, as the rows spell it.
fn end_name(end: WorkerEnd) -> &'static str {
    match end {
        WorkerEnd::Shut => "Shut",
        WorkerEnd::Enough => "Enough",
        WorkerEnd::AcceptFault => "AcceptFault",
        WorkerEnd::NoMemory => "NoMemory",
    }
}

// Adds a line with what came of a worker at that door, of which the links are as they are due.
fn say_worker(
    rt: &impl Abort,
    said: &mut String,
    place: usize,
    worker: usize,
    report: &WorkerReport,
    door: &mut MemDoor,
    entries: &[Numbered],
) {
    let alloc = *said.allocator();
    let talks = door.talks();
    assert!(rt;
        are_served(rt, alloc, place, worker, talks, entries),
        "door {place}"
    );
    let told = talks.len();
    let left = waiting(door);
    let end = end_name(report.end);
    writeln!(said, "{end} {} {told} {left}", report.finished).expect(rt, "memory");
}

// What workers at those doors left, a line for each; and how many entries the spool has.
fn said(
    rt: &impl Abort,
    alloc: Global,
    places: &[usize],
    served: &mut Served<TestDoor, MemDisk>,
) -> String {
    let mut said = String::new(alloc);
    let spool = &mut served.desk.spool;
    let entries = spool.pending(0, 1000).ok().expect(rt, "the entries");
    for (worker, report) in served.reports.iter().enumerate() {
        let place = *places.get(worker).expect(rt, "a place for each worker");
        let door = served
            .doors
            .get_mut(worker)
            .expect(rt, "a door for each worker");
        say_worker(
            rt,
            &mut said,
            place,
            worker,
            report,
            &mut door.door,
            &entries,
        );
    }
    writeln!(said, "{}", spool.end()).expect(rt, "memory");
    said
}

// Places for workers at those doors.
fn posts(rt: &impl Abort, alloc: Global, places: &[usize], failing: &[u64]) -> Vec<Post<TestDoor>> {
    let mut posts = Vec::new(alloc);
    for place in places {
        posts
            .push(post(rt, alloc, *place, failing))
            .expect(rt, "memory");
    }
    posts
}

// What workers leave that serve as the case has it.
fn outcome(
    rt: &(impl Abort + Threads + Wait + Sync),
    alloc: Global,
    case: &Case,
    group: bool,
) -> String {
    let (_, places, most, failing, _) = case;
    let posts = posts(rt, alloc, places, failing);
    assert!(rt; posts.len() <= 64);
    let mut served = served(rt, alloc, group, posts, u32::from(*most));
    said(rt, alloc, places, &mut served)
}

/// Workers leave what the case has, where takes of several may be stored as one group and where they may not.
pub(crate) fn check(
    rt: &(impl Abort + Threads + Wait + Sync),
    alloc: Global,
    case: &Case,
    group: bool,
) {
    let (name, .., want) = case;
    let said = outcome(rt, alloc, case, group);
    assert!(rt; said.as_str() == *want, "{name}: {said}");
}
