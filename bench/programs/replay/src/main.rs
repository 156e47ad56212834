//! How fast a connection is carried: `attend` reads frames of 100 bytes of data out of memory, stores their
//! events in a spool on a disk in memory, and its answers are counted. By RELP each event is a group and has
//! an answer; by Lumberjack each batch. Beside it, in the same run, the window alone over the same bytes, and
//! the disk's calls alone.
//!
//! With the word `times` it does that for both protocols and prints the figures. With `attend` or `read`, a
//! protocol and a count of events it carries or reads one such connection and prints nothing, so that what it
//! asks the allocator for can be counted from outside. With no word it does nothing.
#![tactic(auto)]

mod answers;
mod device;
mod lumberjack;
mod relp;
mod stream;

use answers::Answers;
use anyhow::{Context, bail};
use conn_serve::{Rules, attend};
use edge_io::{Both, MemSource, Proto};
use edge_memory::MemDisk;
use event_form::Talk;
use hec_ids::Ids;
use hec_tokens::TokenList;
use spool_desk::{Alone, Desk};
use spool_log::Spool;
use std::alloc::Global;
use std::env;
use std::hint::black_box;
use std::num::nearest_usize_to_f64;
use std::time::{Duration, Instant};
use stream::Stream;

const EVENTS: u32 = 1_000_000;

const ROUNDS: u32 = 5;

/// How long the connection takes. The spool is made before, and what it holds is looked at behind.
fn carry(rt: &HostRuntime, stream: &Stream, spool: Spool<MemDisk>) -> anyhow::Result<Duration> {
    let alloc = rt.alloc();
    if spool.doubt {
        bail!("the spool is in doubt");
    }
    let mut link = Both {
        source: MemSource::of(
            Vec::from_slice(alloc, &stream.bytes)?,
            1 << 20,
            Vec::new(alloc),
        ),
        sink: Answers::new(),
    };
    let proto = match stream.proto {
        Proto::Relp => Proto::Relp,
        Proto::Lumberjack => Proto::Lumberjack,
        Proto::Hec => bail!("not served"),
    };
    let rules = Rules {
        proto,
        token: None,
        ack_token: None,
        listed: TokenList::none(),
        group: false,
    };
    let ids = Ids::new(alloc, spool.run(), 0);
    let mut alone = Alone::new(Desk { spool, ids });
    let start = Instant::now(rt)?;
    let attended = attend(alloc, &mut link, &rules, &mut alone, 1);
    let taken = start.elapsed(rt)?;
    let Desk { spool, .. } = alone.into_desk();
    let held = spool.end();
    if attended.talk != Talk::Ended || attended.taken != u64::from(stream.events) {
        bail!("{} events were taken", attended.taken);
    }
    if held != u64::from(stream.events) || link.sink.answers() != stream.answers {
        bail!("{held} entries, {} answers", link.sink.answers());
    }
    Ok(taken)
}

/// How many frames the window alone gives.
fn read(alloc: Global, stream: &Stream) -> anyhow::Result<u64> {
    match stream.proto {
        Proto::Relp => relp::read(alloc, &stream.bytes),
        Proto::Lumberjack => lumberjack::read(alloc, &stream.bytes),
        Proto::Hec => bail!("not read"),
    }
}

/// Millions of events a second.
fn events(stream: &Stream, taken: Duration) -> f64 {
    nearest_usize_to_f64(stream.events as usize) / taken.as_secs_f64() / 1e6
}

/// Millions of bytes a second.
fn rate(bytes: &[u8], taken: Duration) -> f64 {
    nearest_usize_to_f64(bytes.len()) / taken.as_secs_f64() / 1e6
}

/// Measures a connection, the best of some rounds, and prints the figures.
fn measure(rt: &HostRuntime, stream: &Stream) -> anyhow::Result<()> {
    let alloc = rt.alloc();
    let mut carrying = Duration::MAX;
    let mut reading = Duration::MAX;
    let mut storing = Duration::MAX;
    for _ in 0..ROUNDS {
        let spool = device::empty_spool(alloc)?;
        carrying = carrying.min(carry(rt, stream, spool)?);
        let start = Instant::now(rt)?;
        let count = black_box(read(alloc, stream)?);
        reading = reading.min(start.elapsed(rt)?);
        if count != stream.frames {
            bail!("{count} frames");
        }
        let mut disk = device::empty_disk(alloc)?;
        let start = Instant::now(rt)?;
        device::store(&mut disk, stream.groups, stream.group, stream.data)?;
        storing = storing.min(start.elapsed(rt)?);
        black_box(disk.bytes().len());
    }
    let whole = carrying.as_secs_f64();
    println!(rt;
        "{:?}: {} events of {} bytes, {} bytes, {} answers, the best of {ROUNDS} runs each",
        stream.proto,
        stream.events,
        stream.data,
        stream.bytes.len(),
        stream.answers
    )?;
    println!(rt;
        "    attend: {:.2} million events/s, {:.0} MB/s",
        events(stream, carrying),
        rate(&stream.bytes, carrying)
    )?;
    println!(rt;
        "    the window alone: {:.2} million events/s, {:.0} MB/s, {:.0} % of the time of attend",
        events(stream, reading),
        rate(&stream.bytes, reading),
        reading.as_secs_f64() / whole * 100.0
    )?;
    println!(rt;
        "    the disk's calls alone: {:.0} % of the time of attend",
        storing.as_secs_f64() / whole * 100.0
    )?;
    Ok(())
}

/// A connection by this protocol.
fn connection(alloc: Global, protocol: &str, events: u32) -> anyhow::Result<Stream> {
    match protocol {
        "relp" => Ok(relp::stream(alloc, events)?),
        "lumberjack" => Ok(lumberjack::stream(alloc, events)?),
        _ => bail!("no protocol {protocol:?}"),
    }
}

/// Carries or reads one connection.
fn once(rt: &HostRuntime, what: &str, stream: &Stream) -> anyhow::Result<()> {
    match what {
        "attend" => {
            black_box(carry(rt, stream, device::empty_spool(rt.alloc())?)?);
        }
        "read" => {
            black_box(read(rt.alloc(), stream)?);
        }
        _ => bail!("nothing is measured by the word {what:?}"),
    }
    Ok(())
}

fn main(rt: HostRuntime) -> anyhow::Result<()> {
    let alloc = rt.alloc();
    let mut words = env::args(&rt)?.skip(1);
    let Some(what) = words.next() else {
        return Ok(());
    };
    if what.as_str() == "times" {
        measure(&rt, &connection(alloc, "relp", EVENTS)?)?;
        return measure(&rt, &connection(alloc, "lumberjack", EVENTS)?);
    }
    let protocol = words.next().context("which protocol?")?;
    let count = words.next().context("how many events?")?.parse::<u32>()?;
    let stream = connection(alloc, protocol.as_str(), count)?;
    once(&rt, what.as_str(), &stream)
}
