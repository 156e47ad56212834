//! Disks in memory: calls that fail, gates, stops and crashes.
ghost use Rattle.std.specs.Prelude.{◌≢◌, ◌+◌, ◌≤◌, length, slice_index};
ghost use Rattle.edge_disk.specs.Gate.{IsGateStep};
ghost use Rattle.edge_memory.specs.MemDisk.{mem_moment};

use edge_disk::{Disk, close_gate, open_gate, write_behind};
use edge_memory::{Crash, MemDisk};
use std::alloc::Global;
use std::process::Abort;

// What stands on a disk on which a write after a gate stopped after so many calls, after a crash.
fn after_stop(bytes: Vec<u8>, calls: u64, gate: u64, piece: &[u8], choice: Crash) -> MemDisk
    requires room { gate + length piece.now + 1 ≤ length bytes.items }
    requires closed { slice_index bytes.items gate ≢ 1 }

    ensures { IsGateStep gate piece.now bytes.items (mem_moment result).reads }
{
    let mut disk = MemDisk::stopped(bytes, calls);
    let _ = write_behind(&mut disk, gate, piece);
    disk.crash(choice)
}

pub(crate) fn a_stop_and_a_crash_leave_all_or_nothing(rt: &impl Abort, alloc: Global) {
    for (calls, choice, left) in [
        // The write that fails leaves its first byte.
        (0, Crash::Written, [7, 0, 4, 9, 9, 7]),
        (0, Crash::Synced, [7, 0, 9, 9, 9, 7]),
        (0, Crash::Filled(8), [7, 0, 8, 8, 8, 7]),
        (1, Crash::Synced, [7, 0, 9, 9, 9, 7]),
        (1, Crash::Written, [7, 0, 4, 5, 6, 7]),
        (1, Crash::Filled(1), [7, 0, 1, 1, 1, 7]),
        (2, Crash::Filled(8), [7, 8, 4, 5, 6, 7]),
        (2, Crash::Filled(1), [7, 1, 4, 5, 6, 7]),
        (3, Crash::Synced, [7, 0, 4, 5, 6, 7]),
        (3, Crash::Written, [7, 1, 4, 5, 6, 7]),
        (4, Crash::Synced, [7, 1, 4, 5, 6, 7]),
        (4, Crash::Filled(8), [7, 1, 4, 5, 6, 7]),
    ] {
        let bytes = [7, 0, 9, 9, 9, 7].to_vec(alloc).expect(rt, "memory");
        let disk = after_stop(bytes, calls, 1, &[4, 5, 6], choice);
        assert!(rt; disk.bytes() == left.as_slice());
    }
}

pub(crate) fn calls_fail_by_their_numbers(rt: &impl Abort, alloc: Global) {
    let failing = [0, 2, 4].to_vec(alloc).expect(rt, "memory");
    let mut disk = MemDisk::of([0; 6].to_vec(alloc).expect(rt, "memory"), failing);
    let write_fails = disk.write_at(1, &[1, 2, 3]).is_err();
    assert!(rt; disk.bytes() == [0, 1, 0, 0, 0, 0].as_slice());
    let write_passes = disk.write_at(4, &[5, 6]).is_ok();
    let sync_fails = disk.sync().is_err();
    let sync_passes = disk.sync().is_ok();
    let mut buf = [9, 9];
    let read_fails = disk.read_at(4, &mut buf).is_err();
    let read_passes = disk.read_at(4, &mut buf).is_ok();
    assert!(rt; write_fails && sync_fails && read_fails);
    assert!(rt; write_passes && sync_passes && read_passes);
    assert!(rt; buf == [5, 6] && disk.starved() == 0);
}

pub(crate) fn gates_open_and_close_on_a_plain_disk(rt: &impl Abort, alloc: Global) {
    let mut disk = MemDisk::plain(alloc, 3).expect(rt, "memory");
    assert!(rt; disk.len() == 3);
    let opened = open_gate(&mut disk, 1).is_ok();
    assert!(rt; opened && disk.bytes() == [0, 1, 0].as_slice());
    let closed = close_gate(&mut disk, 1).is_ok();
    let left = disk.crash(Crash::Filled(7));
    assert!(rt; closed && left.bytes() == [0, 0, 0].as_slice());
}

// With ample memory no call fails. Where the allocation for the record is made to fail, the call does.
pub(crate) fn a_call_without_memory_changes_nothing(rt: &impl Abort, alloc: Global) {
    let bytes = [0; 3].to_vec(alloc).expect(rt, "memory");
    let mut disk = MemDisk::of(bytes, Vec::new(alloc));
    let is_written = disk.write_at(1, &[7]).is_ok();
    assert!(rt; disk.starved() == u64::from(!is_written));
    let byte = if is_written { 7 } else { 0 };
    assert!(rt; disk.bytes() == [0, byte, 0].as_slice());
    let is_synced = disk.sync().is_ok();
    assert!(rt; disk.starved() == u64::from(!(is_written && is_synced)));
    let durable = if is_synced { byte } else { 0 };
    let left = disk.crash(Crash::Synced);
    assert!(rt; left.bytes() == [0, durable, 0].as_slice());
}
