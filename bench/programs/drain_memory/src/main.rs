//! How fast a session forwards: `forward` sends what a spool on a disk in memory holds, events of 100 bytes each in a group of its
//! own, to a peer in memory that takes and acknowledges all. By each protocol, over events in its own form, and by Lumberjack and to a
//! collector over lines too, which are put into an object each. The opening isn't in it, nor the filling.
//!
//! With the word `times` it does that and prints the figures. With `drain` or `fill`, a protocol and a count of events it holds one such
//! session, or only fills the spool, and prints nothing, so that what it asks the allocator for can be counted from outside. With no
//! word it does nothing.
#![tactic(auto)]

mod peer;
mod session;
mod spool;

use anyhow::{Context, bail};
use edge_io::Proto;
use session::{Session, drain};
use spool::{Form, confirmed, filled};
use std::env;
use std::hint::black_box;
use std::num::nearest_usize_to_f64;

const EVENTS: u32 = 1_000_000;

const ROUNDS: u32 = 5;

/// The sessions that are measured.
const SESSIONS: [(Proto, Form); 5] = [
    (Proto::Relp, Form::Line),
    (Proto::Lumberjack, Form::Json),
    (Proto::Lumberjack, Form::Line),
    (Proto::Hec, Form::Object),
    (Proto::Hec, Form::Line),
];

/// The shortest of some sessions.
fn best(rt: &HostRuntime, proto: Proto, form: Form) -> anyhow::Result<Session> {
    let mut best = drain(rt, proto, form, EVENTS)?;
    for _ in 1..ROUNDS {
        let session = drain(rt, proto, form, EVENTS)?;
        if session.time < best.time {
            best = session;
        }
    }
    Ok(best)
}

/// A number as one with a fraction.
fn real(number: u64) -> f64 {
    nearest_usize_to_f64(number as usize)
}

fn print(rt: &HostRuntime, proto: Proto, form: Form, session: Session) -> anyhow::Result<()> {
    println!(rt;
        "{proto:?}, {form:?}: {:.2} million events/s, {:.0} MB/s sent, {:.2} changes of the register per 1,000 events",
        real(u64::from(EVENTS)) / session.time.as_secs_f64() / 1e6,
        real(session.sent) / session.time.as_secs_f64() / 1e6,
        real(session.changes) * 1000.0 / real(u64::from(EVENTS))
    )?;
    Ok(())
}

/// Prints what each session reaches.
fn measure(rt: &HostRuntime) -> anyhow::Result<()> {
    println!(rt; "{EVENTS} events of 100 bytes, the best of {ROUNDS} sessions each")?;
    for (proto, form) in SESSIONS {
        print(rt, proto, form, best(rt, proto, form)?)?;
    }
    Ok(())
}

/// The protocol of this name, and the form of its own events.
fn protocol(name: &str) -> anyhow::Result<(Proto, Form)> {
    match name {
        "relp" => Ok((Proto::Relp, Form::Line)),
        "lumberjack" => Ok((Proto::Lumberjack, Form::Json)),
        "hec" => Ok((Proto::Hec, Form::Object)),
        _ => bail!("no protocol {name:?}"),
    }
}

/// Holds one session, or fills a spool.
fn once(rt: &HostRuntime, what: &str, proto: Proto, form: Form, events: u32) -> anyhow::Result<()> {
    match what {
        "drain" => {
            drain(rt, proto, form, events)?;
        }
        "fill" => {
            black_box(confirmed(&filled(rt.alloc(), form, events)?));
        }
        _ => bail!("nothing is measured by the word {what:?}"),
    }
    Ok(())
}

fn main(rt: HostRuntime) -> anyhow::Result<()> {
    let mut words = env::args(&rt)?.skip(1);
    let Some(what) = words.next() else {
        return Ok(());
    };
    if what.as_str() == "times" {
        return measure(&rt);
    }
    let (proto, form) = protocol(words.next().context("which protocol?")?.as_str())?;
    let count = words.next().context("how many events?")?.parse::<u32>()?;
    once(&rt, what.as_str(), proto, form, count)
}
