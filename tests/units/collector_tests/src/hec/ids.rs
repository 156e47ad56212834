//! Calls of the table of ids, as rows have them.
use crate::hec::id_rows::TABLES;
use crate::spelling::shown;
use hec_ids::{Ids, IssueFault};
use std::alloc::Global;
use std::process::Abort;

/// A channel.
const CHANNEL: u128 = 0x0aee_ac95_ac74_4aa9_b30d_6c4c_0ac5_81ba;

/// Another one.
const OTHER: u128 = 0x14a3_bf8b_5e7d_46e1_a1a0_3a7b_7b5f_6c20;

// The channel that a row names.
fn channel_of(rt: &impl Abort, name: &str) -> u128 {
    if name == "C" {
        CHANNEL
    } else if name == "O" {
        OTHER
    } else {
        name.parse::<u128>().expect(rt, "a channel")
    }
}

// What `issue` answers, as text.
fn issued(rt: &impl Abort, alloc: Global, answer: Result<u64, IssueFault>) -> String {
    let text = match answer {
        Ok(id) => format!(in alloc; "Ok({id})"),
        Err(IssueFault::NoMore { run }) => format!(in alloc; "Err(NoMore {{ run: {run} }})"),
        Err(IssueFault::Busy { held }) => format!(in alloc; "Err(Busy {{ held: {held} }})"),
        Err(IssueFault::NoMemory) => String::from_str(alloc, "Err(NoMemory)"),
    };
    text.expect(rt, "memory")
}

// What `ask` tells of one id.
fn asked(ids: &mut Ids, channel: u128, id: u64) -> bool {
    let mut known = [true];
    ids.ask(channel, &[id], &mut known);
    known[0]
}

// What `ask` tells of three ids at once.
fn asked_at_once(ids: &mut Ids, channel: u128) -> [bool; 3] {
    let mut known = [true; 3];
    ids.ask(channel, &[6, 8, 7], &mut known);
    known
}

// Whether so many ids are issued, on this channel or each on a channel of its own, of which this is the first.
fn issues(ids: &mut Ids, first: u128, count: u64, is_one: bool) -> bool {
    let mut all = true;
    for number in 0..count {
        let offset = if is_one { 0 } else { u128::from(number) };
        all = ids.issue(first.wrapping_add(offset)).is_ok() && all;
    }
    all
}

// The answer of a call by its name, a channel and a number.
fn answer(
    rt: &impl Abort,
    alloc: Global,
    ids: &mut Ids,
    name: &str,
    channel: u128,
    number: u64,
) -> String {
    match name {
        "issue" => issued(rt, alloc, ids.issue(channel)),
        "ask_at_once" => shown(rt, alloc, &asked_at_once(ids, channel)),
        "settle" => shown(rt, alloc, &ids.settle(channel, number)),
        "forget" => shown(rt, alloc, &ids.forget(channel, number)),
        "ask" => shown(rt, alloc, &asked(ids, channel, number)),
        "issue_often" => shown(rt, alloc, &issues(ids, channel, number, true)),
        "issue_on_each" => shown(rt, alloc, &issues(ids, channel, number, false)),
        _ => panic!(rt; "no call: {name}"),
    }
}

// Whether the call of a row has its answer.
fn is_answered(rt: &impl Abort, alloc: Global, ids: &mut Ids, row: &str) -> bool {
    let (call, want) = row.split_once(" => ").expect(rt, "an answer");
    let mut words = call.split(' ');
    let name = words.next().expect(rt, "a call");
    let channel = channel_of(rt, words.next().expect(rt, "a channel"));
    let number = match words.next() {
        Some(word) => word.parse::<u64>().expect(rt, "a number"),
        None => {
            assert!(rt;
                name == "issue" || name == "ask_at_once",
                "no number: {row}"
            );
            0
        }
    };
    assert!(rt; words.next().is_none(), "a word too many: {row}");
    answer(rt, alloc, ids, name, channel, number).as_str() == want
}

/// Each call of each table has its answer.
pub fn tables(rt: &impl Abort, alloc: Global) {
    for (run, first, rows) in TABLES {
        let mut ids = Ids::new(alloc, run, first);
        for row in rows.lines() {
            assert!(rt; is_answered(rt, alloc, &mut ids, row), "{row}");
        }
    }
}
