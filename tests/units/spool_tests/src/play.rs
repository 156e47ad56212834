//! What a script works on: the bytes of a device, and the spool that is open over them.
use crate::calls::{opened, opening_of, recovered, say_pending, with_stretches};
use crate::faults::fault_text;
use crate::script::Step;
use crate::slots::benches::Bench;
use crate::slots::registers::put_cell;
use crate::words::{bytes_of, copied, is_told, number, numbers, word};
use edge_memory::{Crash, MemDisk};
use spool_log::{FormatFault, Opening, Spool, format};
use std::alloc::Global;
use std::process::Abort;

#[derive(Drop)]
pub(crate) struct Play {
    /// The device, as it is read.
    pub device: Vec<u8>,
    /// Another device, to compare.
    pub other: Vec<u8>,
    pub spool: Option<Spool<MemDisk>>,
    /// A slot alone, on a disk of its own.
    pub bench: Option<Bench>,
}

impl Play {
    pub(crate) fn new(alloc: Global) -> Play {
        Play {
            device: Vec::new(alloc),
            other: Vec::new(alloc),
            spool: None,
            bench: None,
        }
    }
}

/// Puts these bytes at the offset, as far as they lie in the device.
pub(crate) fn put(device: &mut [u8], at: u64, bytes: &[u8]) {
    for (place, byte) in device.iter_mut().skip(at as usize).zip(bytes) {
        *place = *byte;
    }
}

// Whether these bytes stand at the offset.
fn holds(device: &[u8], at: u64, bytes: &[u8]) -> bool {
    let there = device.get(at as usize..).unwrap_or(&[]);
    there.starts_with(bytes)
}

fn zeros(rt: &impl Abort, alloc: Global, len: u64) -> Vec<u8> {
    assert!(rt; len <= 10_000_000);
    vec![in alloc; 0; len as usize].expect(rt, "memory")
}

/// Makes the device an empty spool, and leaves what is written.
pub(crate) fn formatted(
    rt: &impl Abort,
    disk: &mut MemDisk,
    slots: u64,
    size: u64,
) -> Result<(), FormatFault> {
    assert!(rt; slots >= 1 && slots <= 1024 && size >= 4096 && size <= 1_073_741_824);
    format(disk, slots as u32, size)
}

/// The disk of a new spool, which keeps no record of what it held.
pub(crate) fn plain(rt: &impl Abort, alloc: Global, slots: u64, size: u64) -> MemDisk {
    assert!(rt; slots <= 9 && size <= 1_000_000);
    let mut disk = MemDisk::plain(alloc, 12_288 + slots * size).expect(rt, "memory");
    formatted(rt, &mut disk, slots, size)
        .ok()
        .expect(rt, "a new device");
    disk
}

// `SLOTS SIZE`: makes the device an empty spool, and answers whether that is answered as the step says.
fn formats(rt: &impl Abort, alloc: Global, device: &mut Vec<u8>, step: Step<'_>) -> bool {
    let (slots, size) = word(step.rest);
    let mut disk = MemDisk::of(copied(rt, alloc, device), Vec::new(alloc));
    let answer = formatted(rt, &mut disk, number(rt, slots), number(rt, size));
    *device = copied(rt, alloc, disk.bytes());
    is_told(rt, alloc, &answer, step.want)
}

/// How many calls of the disk an opening of this device makes that writes nothing.
pub(crate) fn calls_to_open(rt: &impl Abort, alloc: Global, bytes: &[u8]) -> u64 {
    for calls in 0..100 {
        let disk = MemDisk::stopped(copied(rt, alloc, bytes), calls);
        if recovered(alloc, disk, Opening::Keep).is_ok() {
            return calls;
        }
    }
    panic!(rt; "no spool")
}

// The device as a disk, of which the call of this number fails, counted from 0 after the opening.
fn disk_of(rt: &impl Abort, alloc: Global, device: &[u8], failing: &str) -> MemDisk {
    let mut numbers = Vec::new(alloc);
    if !failing.is_empty() {
        let calls = calls_to_open(rt, alloc, device).saturating_add(number(rt, failing));
        numbers.push(calls).expect(rt, "memory");
    }
    MemDisk::of(copied(rt, alloc, device), numbers)
}

// Keeps the spool, and answers whether its run is told so.
fn runs(rt: &impl Abort, play: &mut Play, spool: Spool<MemDisk>, want: &str) -> bool {
    let run = spool.run();
    play.spool = Some(spool);
    let (name, told) = word(want);
    name == "run" && number(rt, told) == u64::from(run)
}

// `HOW FAILING`: opens a spool over the device, or answers whether the refusal is as the step says.
fn opens(rt: &impl Abort, alloc: Global, play: &mut Play, step: Step<'_>) -> bool {
    let (name, failing) = word(step.rest);
    let disk = disk_of(rt, alloc, &play.device, failing);
    play.spool = None;
    match recovered(alloc, disk, opening_of(rt, name)) {
        Ok(spool) => runs(rt, play, spool, step.want),
        Err(refusal) => {
            fault_text(rt, alloc, &refusal.fault).as_str() == step.want
                && refusal.disk.bytes() == play.device.as_slice()
        }
    }
}

// `SLOTS SIZE HOW`: opens a new spool of slots of that size, on a disk that keeps no record of what it held.
fn opens_plain(rt: &impl Abort, alloc: Global, play: &mut Play, step: Step<'_>) -> bool {
    let (slots, rest) = word(step.rest);
    let (size, name) = word(rest);
    let disk = plain(rt, alloc, number(rt, slots), number(rt, size));
    let spool = opened(rt, alloc, disk, opening_of(rt, name));
    runs(rt, play, spool, step.want)
}

// What is pending of a spool; and base, cursor, end and the stretches.
fn whole_of(rt: &impl Abort, alloc: Global, spool: &mut Spool<MemDisk>) -> (String, Vec<u64>) {
    let pending = say_pending(rt, alloc, spool, 0, 2000);
    let numbers = [spool.base(), spool.cursor(), spool.end()];
    let all = with_stretches(rt, alloc, &numbers, spool.known());
    (pending, all)
}

// Whether the same stands after a crash, in a spool that is opened so.
fn again(rt: &impl Abort, alloc: Global, play: &mut Play, name: &str) -> &'static str {
    let opening = opening_of(rt, name);
    let mut spool = play.spool.take().expect(rt, "a spool that is open");
    let before = whole_of(rt, alloc, &mut spool);
    let run = match opening {
        Opening::Keep => spool.run(),
        Opening::Raise => spool.run().saturating_add(1),
    };
    let left = spool.into_disk().crash(Crash::Synced);
    let mut spool = opened(rt, alloc, left, opening);
    let same = spool.run() == run && whole_of(rt, alloc, &mut spool) == before;
    play.spool = Some(spool);
    if same { "same" } else { "another" }
}

fn truth(is_so: bool) -> &'static str {
    if is_so { "yes" } else { "no" }
}

// Closes the spool. The device is what its disk reads.
fn shut(rt: &impl Abort, alloc: Global, play: &mut Play) {
    let spool = play.spool.take().expect(rt, "a spool that is open");
    play.device = copied(rt, alloc, spool.into_disk().bytes());
}

/// Changes the device, and answers whether the step is one of these:
///
/// - `zeros LENGTH`, `put AT BYTES` and `cell AT FIELDS`: a device; `remember` copies it, `restore` takes the
///   copy for it;
/// - `shut`: the device is what the spool's disk reads.
pub(crate) fn lays(rt: &impl Abort, alloc: Global, play: &mut Play, step: Step<'_>) -> bool {
    let (first, bytes) = word(step.rest);
    match step.name {
        "zeros" => play.device = zeros(rt, alloc, number(rt, first)),
        "put" => {
            let bytes = bytes_of(rt, alloc, bytes);
            put(&mut play.device, number(rt, first), &bytes);
        }
        "cell" => {
            let fields = numbers(rt, alloc, bytes);
            put_cell(&mut play.device, number(rt, first), &fields);
        }
        "remember" => play.other = copied(rt, alloc, &play.device),
        "restore" => play.device = copied(rt, alloc, &play.other),
        "shut" => shut(rt, alloc, play),
        _ => return false,
    }
    true
}

/// Opens a spool, and answers whether that is answered as the step says. `None`: the step is none of these.
///
/// - `format SLOTS SIZE`: makes the device an empty spool; `done` or the fault;
/// - `open HOW FAILING`: a spool over it, where the disk's call of this number fails, counted from 0 after
///   the opening, or none; `run RUN`, or the fault of a device that is left as it was;
/// - `plain SLOTS SIZE HOW`: a new spool, on a disk that keeps no record of what it held; `run RUN`.
pub(crate) fn makes_spool(
    rt: &impl Abort,
    alloc: Global,
    play: &mut Play,
    step: Step<'_>,
) -> Option<bool> {
    match step.name {
        "format" => Some(formats(rt, alloc, &mut play.device, step)),
        "open" => Some(opens(rt, alloc, play, step)),
        "plain" => Some(opens_plain(rt, alloc, play, step)),
        _ => None,
    }
}

/// Compares what stands with what stood, and answers whether it is as the step says. `None`: the step is none of these.
///
/// - `again HOW`: a crash, and the spool opened anew; `same` where it has the same then;
/// - `holds AT BYTES`: whether these bytes stand in the device there: `yes` or `no`;
/// - `equal`: whether the device is like its copy: `yes` or `no`.
pub(crate) fn compares(
    rt: &impl Abort,
    alloc: Global,
    play: &mut Play,
    step: Step<'_>,
) -> Option<bool> {
    let said = match step.name {
        "again" => again(rt, alloc, play, step.rest),
        "holds" => {
            let (at, bytes) = word(step.rest);
            let bytes = bytes_of(rt, alloc, bytes);
            truth(holds(&play.device, number(rt, at), &bytes))
        }
        "equal" => truth(play.device == play.other),
        _ => return None,
    };
    Some(said == step.want)
}
