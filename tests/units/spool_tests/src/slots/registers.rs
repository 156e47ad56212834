//! Registers: what counts, what is refused, and changes that are stopped.
ghost use Rattle.std.specs.Prelude.{◌≡◌, ◌≤◌, length};
ghost use Rattle.edge_disk.specs.Disk.{IsSettled};
ghost use Rattle.edge_memory.specs.MemDisk.{mem_moment};

use crate::faults::fault_text;
use crate::play::put;
use crate::stops::{CRASHES, Change, change_of};
use crate::words::{are, copied, numbers};
use disk_cell::{Content, Register, SetFault, Stretch};
use edge_memory::{Crash, MemDisk};
use std::alloc::Global;
use std::process::Abort;

/// Cells and what is read of them, and changes.
pub(crate) const REGISTERS: &str =
    r#"- a cell has a gate, an ordinal, a length, a version, a run, a cursor, a count and a stretch's ends
zeros 12288
cell 4096 1 1 17 1 0 0 9 9 9
cell 8192 0 7 17 1 3 9
register = 1 0 0 1
zeros 12288
cell 4096 0 7 17 1 3 9
cell 8192 1 1 19 2
register = 2 0 0 1
zeros 12288
cell 4096 1 4 99 8 3000000 9
cell 8192 1 5 35 2 2097151 6 1 8 9
register = 2 2097151 6 5 8 9
zeros 12288
cell 4096 1 9223372036854775808 17 1 2 8
cell 8192 1 4 99 8 3000000 9
register = 1 2 8 9223372036854775808
zeros 12288
cell 4096 2 1 19 2
cell 8192 0 7 17 1 3 9
register = NotSpool { at: 4096 }
zeros 12288
cell 4096 1 1 17 1 0 0 9 9 9
cell 8192 1 1 19 2 4 4
register = NotSpool { at: 4096 }
zeros 12288
cell 4096 1 4 99 8 3000000 9
cell 8192 0 7 17 1 3 9
register = NotSpool { at: 4096 }
zeros 12288
cell 4096 1 1 19 2
cell 8192 1 4 99 8 3000000 9
register = NotSpool { at: 8192 }
zeros 12288
cell 4096 1 1 16 1
cell 8192 0 7 17 1 3 9
register = NotSpool { at: 4096 }
zeros 12288
cell 4096 1 1 19 1
cell 8192 0 7 17 1 3 9
register = NotSpool { at: 4096 }
zeros 12288
cell 4096 1 1 17 2
cell 8192 0 7 17 1 3 9
register = NotSpool { at: 4096 }
zeros 12288
cell 4096 1 1 35 2
cell 8192 0 7 17 1 3 9
register = NotSpool { at: 4096 }
zeros 12288
cell 4096 1 1 19 2 0 0 1 8 9
cell 8192 0 7 17 1 3 9
register = NotSpool { at: 4096 }
zeros 12288
cell 4096 1 1 3875 2 0 0 241 8 9
cell 8192 0 7 17 1 3 9
register = NotSpool { at: 4096 }
zeros 12288
cell 4096 1 1 19 3
cell 8192 0 7 17 1 3 9
register = NotSpool { at: 4096 }
zeros 12288
cell 4096 1 1 17 1 0 0 9 9 9
cell 8192 1 2 19 2 2097152
register = NotSpool { at: 8192 }
zeros 12288
cell 4096 1 1 19 2
cell 8192 1 9223372036854775809 17 1
register = NotSpool { at: 8192 }

- a change writes version 2 into the other cell, over a cell of version 1 and one of version 2
zeros 12288
cell 4096 1 1 17 1
cell 8192 0 7 17 1 3 9
set 1 0 = done
holds 8192 %01%00%00%00%00%00%00%00%02%00%00%00%13%02%00%00%00%00%00%00%00%01%00%00%00%00%00%00%00%00%00%00 = yes
holds 4096 %01%00%00%00%00%00%00%00%01%00%00%00%11%01%00%00%00%00%00%00%00%00%00%00%00%00%00%00%00%00%00%00 = yes
holds 4128 %00%00%00%00%00%00%00%00%00%00%00%00%00%00%00%00 = yes
register = 2 1 0 2
zeros 12288
cell 4096 1 1 35 2 0 0 1 8 9
cell 8192 0 7 17 1 3 9
set 1 0 = done
holds 8192 %01%00%00%00%00%00%00%00%02%00%00%00%13%02%00%00%00%00%00%00%00%01%00%00%00%00%00%00%00%00%00%00 = yes
holds 4096 %01%00%00%00%00%00%00%00%01%00%00%00%23%02%00%00%00%00%00%00%00%00%00%00%00%00%00%00%00%00%00%01 = yes
holds 4128 %00%00%00%00%00%00%00%08%00%00%00%00%00%00%00%09 = yes
register = 2 1 0 2
zeros 12288
cell 4096 1 1 17 1
cell 8192 0 7 17 1 3 9
set 1 0 2 4 9 258 = done
holds 8192 %01%00%00%00%00%00%00%00%02%00%00%00%33%02%00%00%00%00%00%00%00%01%00%00%00%00%00%00%00%00%00%02 = yes
holds 8224 %00%00%00%00%00%00%00%02%00%00%00%00%00%00%00%04%00%00%00%00%00%00%00%09%00%00%00%00%00%00%01%02 = yes
holds 4096 %01%00%00%00%00%00%00%00%01%00%00%00%11%01%00%00%00%00%00%00%00%00%00%00%00%00%00%00%00%00%00%00 = yes
holds 4128 %00%00%00%00%00%00%00%00%00%00%00%00%00%00%00%00 = yes
register = 2 1 0 2 2 4
zeros 12288
cell 4096 1 1 35 2 0 0 1 8 9
cell 8192 0 7 17 1 3 9
set 1 0 2 4 9 258 = done
holds 8192 %01%00%00%00%00%00%00%00%02%00%00%00%33%02%00%00%00%00%00%00%00%01%00%00%00%00%00%00%00%00%00%02 = yes
holds 8224 %00%00%00%00%00%00%00%02%00%00%00%00%00%00%00%04%00%00%00%00%00%00%00%09%00%00%00%00%00%00%01%02 = yes
holds 4096 %01%00%00%00%00%00%00%00%01%00%00%00%23%02%00%00%00%00%00%00%00%00%00%00%00%00%00%00%00%00%00%01 = yes
holds 4128 %00%00%00%00%00%00%00%08%00%00%00%00%00%00%00%09 = yes
register = 2 1 0 2 2 4

- a stop leaves the old or the new: to read it takes two calls, and one more where there are stretches; a cell that is closed is
- written in four calls then, one that is open in six
zeros 12288
cell 4096 0 9 17 1 8 90
cell 8192 1 2 17 1 4 60
set_stops 6 | 1 4 60 2 | 2 5 70 3 72 80 | 5 70 72 80
zeros 12288
cell 4096 1 1 35 2 3 50 1 51 52
cell 8192 1 2 17 1 4 60
set_stops 8 | 1 4 60 2 | 2 5 70 3 72 80 | 5 70 72 80
zeros 12288
cell 4096 0 9 17 1 8 90
cell 8192 1 2 35 2 4 60 1 62 63
set_stops 7 | 2 4 60 2 62 63 | 2 5 70 3 72 80 | 5 70 72 80
zeros 12288
cell 4096 1 1 35 2 3 50 1 51 52
cell 8192 1 2 35 2 4 60 1 62 63
set_stops 9 | 2 4 60 2 62 63 | 2 5 70 3 72 80 | 5 70 72 80

- a worn register is left alone
zeros 12288
cell 4096 0 9 17 1 8 90
cell 8192 1 9223372036854775808 17 1 4 60
set 5 70 = Worn { ordinal: 9223372036854775808 }
holds 4096 %00 = yes
holds 4104 %09 = yes
"#;

/// Puts the fields of a cell at the offset: its gate, ordinal, length, version, run, cursor, count, and the ends
/// of a stretch. Those that aren't named are 0.
pub(crate) fn put_cell(device: &mut [u8], at: u64, fields: &[u64]) {
    let mut at = at;
    for (width, field) in [1, 8, 4, 1, 8, 8, 2, 8, 8].iter().zip(fields) {
        let unused = 8_usize.saturating_sub(*width);
        if let Some(bytes) = field.to_be_bytes().get(unused..) {
            put(device, at, bytes);
        }
        at = at.saturating_add(*width as u64);
    }
}

/// Whether what is read of the register is told so: its version, run, cursor and ordinal, and the ends of its first
/// stretch; or the fault.
pub(crate) fn is_register(rt: &impl Abort, alloc: Global, disk: &mut MemDisk, want: &str) -> bool {
    assert!(rt; disk.bytes().len() >= 12_288);
    match Register::load(alloc, disk) {
        Ok(register) => is_content(register.value(), register.ordinal(), want),
        Err(fault) => fault_text(rt, alloc, &fault).as_str() == want,
    }
}

fn is_content(value: &Content, ordinal: u64, want: &str) -> bool {
    let (version, run) = (u64::from(value.version), u64::from(value.run));
    match value.known.first() {
        None => are(want, &[version, run, value.cursor, ordinal]),
        Some(one) => are(
            want,
            &[version, run, value.cursor, ordinal, one.from, one.to],
        ),
    }
}

// Reads the register and changes it. `None`: it isn't read.
fn change(
    rt: &impl Abort,
    alloc: Global,
    disk: &mut MemDisk,
    run: u64,
    cursor: u64,
    known: &[Stretch],
) -> Option<Result<(), SetFault>>
    requires settled { IsSettled (mem_moment disk.old) }
    requires few { length known.now ≤ 240 }
    ensures { (mem_moment disk.new).size ≡ (mem_moment disk.old).size }
{
    assert!(rt; disk.bytes().len() >= 12_288 && run <= 2_097_151);
    match Register::load(alloc, disk) {
        Ok(mut register) => Some(register.set(disk, run as u32, cursor, known)),
        Err(_) => None,
    }
}

fn stretch(from: u64, to: u64) -> Stretch {
    Stretch { from, to }
}

/// `RUN CURSOR FROM TO FROM TO`, `RUN CURSOR FROM TO` and `RUN CURSOR`: changes the register. `None`: it isn't read.
pub(crate) fn set(
    rt: &impl Abort,
    alloc: Global,
    disk: &mut MemDisk,
    spelled: &str,
) -> Option<Result<(), SetFault>>
    requires { IsSettled (mem_moment disk.old) }
{
    let words = numbers(rt, alloc, spelled);
    match words.as_slice() {
        [run, cursor] => change(rt, alloc, disk, *run, *cursor, &[]),
        [run, cursor, from, to] => {
            let one = stretch(*from, *to);
            change(rt, alloc, disk, *run, *cursor, &[one])
        }
        [run, cursor, from, to, more, last] => {
            let known = [stretch(*from, *to), stretch(*more, *last)];
            change(rt, alloc, disk, *run, *cursor, &known)
        }
        _ => panic!(rt; "no stretches"),
    }
}

// Whether a change of the register that is stopped after so many calls leaves the old content or the new, and the new
// where it was answered as done, which it was where it could make all its calls.
fn stops_well(
    rt: &impl Abort,
    alloc: Global,
    disk: MemDisk,
    choice: Crash,
    change: Change<'_>,
    whole: bool,
) -> bool
    requires { IsSettled (mem_moment disk) }
{
    let mut disk = disk;
    let done = set(rt, alloc, &mut disk, change.step) == Some(Ok(()));
    let mut left = disk.crash(choice);
    let is_old = !done && is_register(rt, alloc, &mut left, change.old);
    done == whole && (is_old || is_register(rt, alloc, &mut left, change.new))
}

/// Whether a change of the register, wherever it is stopped, leaves the old content or the new, and the new where it
/// was answered as done.
pub(crate) fn set_stops(rt: &impl Abort, alloc: Global, device: &[u8], spelled: &str) -> bool {
    let change = change_of(rt, spelled);
    for calls in 0..10 {
        let whole = calls >= change.calls;
        for choice in &CRASHES {
            let disk = MemDisk::stopped(copied(rt, alloc, device), calls);
            if !stops_well(rt, alloc, disk, *choice, change, whole) {
                return false;
            }
        }
    }
    true
}
