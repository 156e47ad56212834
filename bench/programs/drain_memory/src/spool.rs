//! A desk over a spool in memory, with the entries that are to be forwarded.
ghost use Rattle.std.specs.Prelude.{◌≡◌, false, IfOk};
ghost use Rattle.event_form.specs.Entry.{IsEntry};
ghost use Rattle.event_form.specs.Event.{IsEvent};
ghost use Rattle.spool_log.specs.Memory.{run_of};
ghost use Rattle.spool_desk.specs.Alone.{HoldsNone};

use anyhow::bail;
use desk_access::Access;
use edge_memory::MemDisk;
use event_form::{Blob, Entry, Event, Origin};
use hec_ids::Ids;
use spool_desk::{Alone, Desk};
use spool_log::{Opening, Spool, format};
use std::alloc::{AllocError, Global};

const SLOTS: u32 = 8;

/// How many bytes a slot has.
const SIZE: u64 = 18 << 20;

/// What the events are, of 100 bytes each.
#[derive(Clone, Copy, Debug)]
pub enum Form {
    /// Lines, as RELP's `syslog` frames bring them.
    Line,
    /// JSON objects, as Lumberjack's frames bring them.
    Json,
    /// Event objects of the collector.
    Object,
}

fn event(alloc: Global, form: Form) -> Result<Event, AllocError>
    ensures { IfOk result IsEvent }
{
    let (origin, text) = match form {
        Form::Line => (
            Origin::Relp,
            Vec::from_slice(
                alloc,
                b"<13>Nov 27 02:00:00 host7 app[4711]: connection from 192.0.2.17:40312 closed after 17.0003 s, 0000 B",
            )?,
        ),
        Form::Json => (
            Origin::LumberJson,
            Vec::from_slice(
                alloc,
                br#"{"message":"connection from 192.0.2.17 closed","level":"info","pid":4711,"bytes":48213,"host":"h17"}"#,
            )?,
        ),
        Form::Object => (
            Origin::HecEvent,
            Vec::from_slice(
                alloc,
                br#"{"event":"<13>Nov 27 02:00:00 host7 app[4711]: connection closed","time":1795744800,"host":"host77"}"#,
            )?,
        ),
    };
    Ok(Event {
        origin,
        text: Blob::of(text),
    })
}

fn entry(alloc: Global, form: Form, index: u64) -> Result<Entry, AllocError>
    ensures { IfOk result IsEntry }
{
    Ok(Entry {
        conn: 1,
        index,
        unit: 1,
        event: event(alloc, form)?,
    })
}

/// An empty spool in memory, opened for storing, with no id.
fn empty_desk(alloc: Global) -> anyhow::Result<Desk<MemDisk>>
    ensures sure { IfOk result (λ desk. desk.spool.doubt ≡ false) }
    ensures ids { IfOk result (λ desk. HoldsNone (run_of desk.spool.memory) desk.ids) }
{
    let mut disk = MemDisk::plain(alloc, 12_288 + u64::from(SLOTS) * SIZE)?;
    if format(&mut disk, SLOTS, SIZE).is_err() {
        bail!("no empty spool");
    }
    match Spool::recover(alloc, disk, Opening::Raise) {
        Ok(spool) => {
            let ids = Ids::new(alloc, spool.run(), 0);
            Ok(Desk { spool, ids })
        }
        Err(_) => bail!("the spool was not opened"),
    }
}

/// Takes so many entries, each as a group.
fn fill(alloc: Global, form: Form, events: u32, desk: &mut Alone<MemDisk>) -> anyhow::Result<()> {
    for index in 0..events {
        let entry = entry(alloc, form, u64::from(index))?;
        if desk.take(&[entry]).is_err() {
            bail!("entry {index} was not taken");
        }
    }
    Ok(())
}

/// A desk whose spool holds so many entries, each in a group of its own, none of which is known as confirmed.
pub fn filled(alloc: Global, form: Form, events: u32) -> anyhow::Result<Alone<MemDisk>> {
    let mut desk = Alone::new(empty_desk(alloc)?);
    fill(alloc, form, events, &mut desk)?;
    Ok(desk)
}

/// How often the register of the desk's spool was changed.
pub fn register_changes(desk: &Alone<MemDisk>) -> u64 {
    desk.desk.spool.memory.register.ordinal()
}

/// How many entries are known as confirmed from the first one on.
pub fn confirmed(desk: &Alone<MemDisk>) -> u64 {
    desk.standing().cursor
}
