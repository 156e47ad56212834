//! How fast a connection of the collector is carried: `attend` reads requests of 100 objects of 100 bytes out of
//! memory, stores each request's events as a group in a spool on a disk in memory, and its replies are counted. The
//! event is the first member of each object, or the last. Beside it, in the same run, the window alone over the same
//! bytes, the cutting of the bodies alone, and the disk's calls alone.
//!
//! With the word `times` it does that and prints the figures. With `attend` and a count of requests it carries one
//! such connection and prints nothing, so that what it asks the allocator for can be counted from outside. With no
//! word it does nothing.
#![tactic(auto)]

mod answers;
mod device;
mod stream;
mod window;

use answers::Answers;
use anyhow::{Context, bail};
use conn_serve::{Rules, attend};
use edge_io::{Both, MemSource, Proto};
use edge_memory::MemDisk;
use event_form::Talk;
use hec_body::event_pieces;
use hec_ids::Ids;
use hec_tokens::TokenList;
use spool_desk::{Alone, Desk};
use spool_log::Spool;
use std::alloc::Global;
use std::env;
use std::hint::black_box;
use std::num::nearest_usize_to_f64;
use std::time::{Duration, Instant};
use stream::{DATA, GROUP, Place, TOKEN};

const REQUESTS: u32 = 10_000;

const ROUNDS: u32 = 5;

/// How long the connection takes. The spool is made before, and what it holds is looked at after.
fn carry(
    rt: &HostRuntime,
    bytes: &[u8],
    requests: u32,
    spool: Spool<MemDisk>,
) -> anyhow::Result<Duration> {
    let alloc = rt.alloc();
    if spool.doubt {
        bail!("the spool is in doubt");
    }
    let mut link = Both {
        source: MemSource::of(Vec::from_slice(alloc, bytes)?, 1 << 20, Vec::new(alloc)),
        sink: Answers::new(),
    };
    let rules = Rules {
        proto: Proto::Hec,
        token: Some(TOKEN),
        ack_token: None,
        listed: TokenList::none(),
        group: false,
    };
    let ids = Ids::new(alloc, spool.run(), 0);
    let mut alone = Alone::new(Desk { spool, ids });
    let start = Instant::now(rt)?;
    let attended = attend(alloc, &mut link, &rules, &mut alone, 1);
    let taken = start.elapsed(rt)?;
    let Desk { spool, .. } = alone.into_desk();
    let events = u64::from(requests) * u64::from(GROUP);
    if attended.talk != Talk::Ended || attended.taken != events {
        bail!("{} events were taken", attended.taken);
    }
    if spool.end() != events || link.sink.answers() != u64::from(requests) {
        bail!("{} entries, {} answers", spool.end(), link.sink.answers());
    }
    Ok(taken)
}

/// Cuts the body as often as there are requests.
fn cut(alloc: Global, body: &[u8]) -> anyhow::Result<()> {
    for _ in 0..REQUESTS {
        match event_pieces(alloc, black_box(body)) {
            Ok(pieces) => {
                if black_box(pieces).len() != GROUP as usize {
                    bail!("another count of pieces");
                }
            }
            Err(_) => bail!("a body was refused"),
        }
    }
    Ok(())
}

/// Millions a second.
fn rate(count: usize, taken: Duration) -> f64 {
    nearest_usize_to_f64(count) / taken.as_secs_f64() / 1e6
}

/// How much of the whole a part takes, in hundredths.
fn share(part: Duration, whole: Duration) -> f64 {
    part.as_secs_f64() / whole.as_secs_f64() * 100.0
}

/// Measures connections with the event at this place, the best of some rounds, and prints the figures.
fn measure(rt: &HostRuntime, place: Place) -> anyhow::Result<()> {
    let alloc = rt.alloc();
    let body = stream::body(alloc, place)?;
    let bytes = stream::requests(alloc, &body, REQUESTS)?;
    let mut carrying = Duration::MAX;
    let mut reading = Duration::MAX;
    let mut cutting = Duration::MAX;
    let mut storing = Duration::MAX;
    for _ in 0..ROUNDS {
        let spool = device::empty_spool(alloc)?;
        carrying = carrying.min(carry(rt, &bytes, REQUESTS, spool)?);
        let start = Instant::now(rt)?;
        let requests = black_box(window::read(alloc, &bytes)?);
        reading = reading.min(start.elapsed(rt)?);
        if requests != REQUESTS {
            bail!("{requests} requests");
        }
        let start = Instant::now(rt)?;
        cut(alloc, &body)?;
        cutting = cutting.min(start.elapsed(rt)?);
        let mut disk = device::empty_disk(alloc)?;
        let start = Instant::now(rt)?;
        device::store(&mut disk, u64::from(REQUESTS), GROUP, DATA)?;
        storing = storing.min(start.elapsed(rt)?);
        black_box(disk.bytes().len());
    }
    println!(rt;
        "{place:?} member: {REQUESTS} requests of {GROUP} events of {DATA} bytes, {} bytes, the best of {ROUNDS} runs each",
        bytes.len()
    )?;
    println!(rt;
        "    attend: {:.2} million events/s, {:.0} MB/s",
        rate(REQUESTS as usize * GROUP as usize, carrying),
        rate(bytes.len(), carrying)
    )?;
    println!(rt;
        "    the window alone {:.0} %, the cutting of the bodies {:.0} %, the disk's calls {:.0} % of the time of attend",
        share(reading, carrying),
        share(cutting, carrying),
        share(storing, carrying)
    )?;
    Ok(())
}

fn main(rt: HostRuntime) -> anyhow::Result<()> {
    let alloc = rt.alloc();
    let mut words = env::args(&rt)?.skip(1);
    let Some(what) = words.next() else {
        return Ok(());
    };
    if what.as_str() == "times" {
        measure(&rt, Place::First)?;
        return measure(&rt, Place::Last);
    }
    let count = words.next().context("how many requests?")?.parse::<u16>()?;
    let body = stream::body(alloc, Place::First)?;
    let bytes = stream::requests(alloc, &body, u32::from(count))?;
    black_box(carry(&rt, &bytes, u32::from(count), device::empty_spool(alloc)?)?);
    Ok(())
}
