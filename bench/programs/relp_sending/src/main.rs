//! How fast relp_sender makes its texts: events of 100 bytes are given to it in batches of 128, its texts are
//! copied into a buffer as a socket would take them, and a peer that stores nothing acknowledges each frame.
//! A copy of the same events' texts stands beside it.
#![tactic(auto)]

ghost use Rattle.std.specs.Prelude.{true, ◌≡◌, ◌+◌, ◌<◌, ◌≤◌, ◌^◌, length, All, IfOk};
ghost use Rattle.event_form.specs.declared.turn.Turn.TheVariants.{Need};
ghost use Rattle.event_form.specs.Event.{IsEvent};
ghost use Rattle.relp_sender.specs.Sender.{given};

use anyhow::bail;
use event_form::{Blob, Entry, Event, Origin, Turn};
use relp_sender::RelpSender;
use std::alloc::{AllocError, Global};
use std::hint::black_box;
use std::num::nearest_usize_to_f64;
use std::time::{Duration, Instant};

const EVENTS: u64 = 300_000;

const TEXT: &[u8] =
    b"<13>Nov 27 02:00:00 host7 app[4711]: connection from 192.0.2.17:40312 closed after 17.0003 s, 0000 B";

const ROUNDS: u32 = 5;

/// An entry of 100 bytes.
fn entry(alloc: Global) -> Result<Entry, AllocError>
    ensures { IfOk result (λ entry. IsEvent entry.event) }
{
    let event = Event {
        origin: Origin::HecRaw,
        text: Blob::of(Vec::from_slice(alloc, TEXT)?),
    };
    Ok(Entry {
        conn: 1,
        index: 0,
        unit: 0,
        event,
    })
}

fn two(alloc: Global) -> Result<Vec<Entry>, AllocError>
    ensures limits { IfOk result (λ entries. All (λ entry. IsEvent entry.event) entries.items) }
    ensures count { IfOk result (λ entries. length entries.items ≡ 2) }
{
    let mut entries = Vec::with_capacity(alloc, 128)?;
    entries.push(entry(alloc)?)?;
    entries.push(entry(alloc)?)?;
    Ok(entries)
}

fn twice(mut entries: Vec<Entry>, mut more: Vec<Entry>) -> Result<Vec<Entry>, AllocError>
    requires limits { All (λ entry. IsEvent entry.event) entries.items }
    requires more { All (λ entry. IsEvent entry.event) more.items }
    ensures limits { IfOk result (λ all. All (λ entry. IsEvent entry.event) all.items) }
    ensures count { IfOk result (λ all. length all.items ≡ length entries.items + length more.items) }
{
    entries.append(&mut more)?;
    Ok(entries)
}

fn four(alloc: Global) -> Result<Vec<Entry>, AllocError>
    ensures limits { IfOk result (λ entries. All (λ entry. IsEvent entry.event) entries.items) }
    ensures count { IfOk result (λ entries. length entries.items ≡ 4) }
{
    twice(two(alloc)?, two(alloc)?)
}

fn sixteen(alloc: Global) -> Result<Vec<Entry>, AllocError>
    ensures limits { IfOk result (λ entries. All (λ entry. IsEvent entry.event) entries.items) }
    ensures count { IfOk result (λ entries. length entries.items ≡ 16) }
{
    let eight = twice(four(alloc)?, four(alloc)?)?;
    let more = twice(four(alloc)?, four(alloc)?)?;
    twice(eight, more)
}

/// A batch of 128 entries.
fn batch(alloc: Global) -> Result<Vec<Entry>, AllocError>
    ensures limits { IfOk result (λ entries. All (λ entry. IsEvent entry.event) entries.items) }
    ensures count { IfOk result (λ entries. length entries.items ≡ 128) }
{
    let first = twice(sixteen(alloc)?, sixteen(alloc)?)?;
    let second = twice(sixteen(alloc)?, sixteen(alloc)?)?;
    let third = twice(sixteen(alloc)?, sixteen(alloc)?)?;
    let fourth = twice(sixteen(alloc)?, sixteen(alloc)?)?;
    twice(twice(first, second)?, twice(third, fourth)?)
}

/// What the peer answers to so many frames, one after another, and where each answer ends.
fn answers(alloc: Global, frames: u64) -> Result<(Vec<u8>, Vec<usize>), AllocError> {
    let mut bytes = Vec::new(alloc);
    let mut ends = Vec::new(alloc);
    for frame in 0..frames {
        let number = frame % 999_999_999 + 1;
        bytes.extend_from_slice(number.to_string(alloc)?.as_bytes())?;
        bytes.extend_from_slice(b" rsp 6 200 OK\n")?;
        ends.push(bytes.len())?;
    }
    Ok((bytes, ends))
}

/// A sender, how many entries it was given, and how many bytes it may still be fed.
#[derive(Drop)]
struct Session {
    sender: RelpSender,
    count: u64,
    left: usize,
    ghost counted: { given sender ≡ count },
    ghost first: { 0 < count → sender.first ≡ 0 },
    ghost room: { sender.reader.at + length sender.reader.rest + left ≤ 2 ^ 40 },
}

impl Session {
    fn new(alloc: Global) -> Session {
        Session {
            sender: RelpSender::new(alloc),
            count: 0,
            left: 1 << 40,
        }
    }

    fn turn(&mut self) -> Result<Turn, AllocError>
        ensures { IfOk result (λ turn. turn ≡ Need → self.new.sender.asked ≡ true) }
    {
        self.sender.turn()
    }

    fn give(&mut self, entries: Vec<Entry>) -> anyhow::Result<()>
        requires asked { self.old.sender.asked ≡ true }
        requires limits { All (λ entry. IsEvent entry.event) entries.items }
        requires count { length entries.items ≡ 128 }
    {
        if self.count > 1 << 40 {
            bail!("too many entries");
        }
        self.sender.give(self.count, entries);
        self.count += 128;
        Ok(())
    }

    fn finish(&mut self)
        requires { self.old.sender.asked ≡ true }
    {
        self.sender.finish();
    }

    fn feed(&mut self, piece: &[u8]) -> anyhow::Result<()> {
        if piece.len() > self.left {
            bail!("too many bytes");
        }
        self.left -= piece.len();
        self.sender.feed(piece)?;
        Ok(())
    }
}

/// Drains so many batches, and says how many entries are acknowledged.
fn drain(
    alloc: Global,
    batches: u64,
    answers: &[u8],
    ends: &[usize],
    out: &mut Vec<u8>,
) -> anyhow::Result<u64> {
    let mut session = Session::new(alloc);
    let mut given = 0;
    let mut written = 0usize;
    let mut fed = 0;
    let mut known = 0;
    for _ in 0..u64::MAX {
        match session.turn()? {
            Turn::Write(text) => {
                if out.len() > 65_536 {
                    out.clear();
                }
                out.extend_from_slice(text.bytes())?;
                written = written.wrapping_add(1);
            }
            Turn::Confirmed { upto } => known = upto,
            Turn::Need if given == batches => session.finish(),
            Turn::Need => {
                session.give(batch(alloc)?)?;
                given = given.wrapping_add(1);
            }
            Turn::Wait => {
                let Some(end) = ends.get(written.wrapping_sub(1)) else {
                    bail!("{written} frames");
                };
                let Some(piece) = answers.get(fed..*end) else {
                    bail!("no answer to {written} frames");
                };
                session.feed(piece)?;
                fed = *end;
            }
            Turn::Done => return Ok(known),
            _ => bail!("another turn"),
        }
    }
    bail!("no end")
}

/// Makes the same batches, and copies their texts.
fn copy(alloc: Global, batches: u64, out: &mut Vec<u8>) -> Result<(), AllocError> {
    for _ in 0..batches {
        for entry in &batch(alloc)? {
            if out.len() > 65_536 {
                out.clear();
            }
            out.extend_from_slice(entry.event.text.bytes())?;
        }
    }
    Ok(())
}

/// Millions of events a second.
fn rate(events: u64, taken: Duration) -> f64 {
    nearest_usize_to_f64(events as usize) / taken.as_secs_f64() / 1e6
}

fn main(rt: HostRuntime) -> anyhow::Result<()> {
    let alloc = rt.alloc();
    let batches = EVENTS / 128;
    let events = batches * 128;
    let (bytes, ends) = answers(alloc, events + 2)?;
    let mut out = Vec::new(alloc);
    let mut sending = Duration::MAX;
    let mut copying = Duration::MAX;
    for _ in 0..ROUNDS {
        out.clear();
        let start = Instant::now(&rt)?;
        let known = drain(alloc, batches, &bytes, &ends, &mut out)?;
        sending = sending.min(start.elapsed(&rt)?);
        if known != events {
            bail!("{known} of {events} events");
        }
        black_box(out.len());
        out.clear();
        let start = Instant::now(&rt)?;
        copy(alloc, batches, &mut out)?;
        copying = copying.min(start.elapsed(&rt)?);
        black_box(out.len());
    }
    println!(rt; "{events} events of 100 bytes, each answered, the best of {ROUNDS} runs")?;
    println!(rt; "    RelpSender: {:.2} million events a second", rate(events, sending))?;
    println!(rt; "    the events made and their texts copied: {:.2} million", rate(events, copying))?;
    Ok(())
}
