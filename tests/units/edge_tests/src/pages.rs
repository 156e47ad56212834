//! Disks that hold back the last part of a page, over disks in memory.

use crate::beside::{Beside, Dice, SIZE, front, text};
use edge_disk::{Disk, DiskFault};
use edge_file::WholePages;
use edge_memory::{Crash, MemDisk};
use std::alloc::Global;
use std::process::Abort;

// A call of a disk: of a write the offset and the number of bytes.
#[derive(Clone, Copy, PartialEq, Eq)]
enum Call {
    Read,
    Write(u64, usize),
    Sync,
}

// A disk as it is, which writes down its calls.
#[derive(Drop)]
struct Seen<D> {
    disk: D,
    calls: Vec<Call>,
}

impl<D: Disk> Disk for Seen<D> {
    ghost tells = { D.tells };

    ghost tells_images = { λ d. D.tells_images d.disk };

    ghost moment = { λ d. D.moment d.disk };

    ghost may_release = { D.may_release };

    ghost may_tear = { λ d at n. D.may_tear d.disk at n };

    ghost reads_too = { λ d images. D.reads_too d.disk images };

    ghost fits = { λ d. D.fits d.disk };

    ghost lawful = { λ d tells. D.lawful d.disk tells };

    ghost stands_in = { λ d t c tells. D.stands_in d.disk t c tells };

    fn len(&self) -> u64 {
        self.disk.len()
    }

    fn read_at(&mut self, at: u64, buf: &mut [u8]) -> Result<(), DiskFault> {
        let _ = self.calls.push(Call::Read);
        self.disk.read_at(at, buf)
    }

    fn write_at(&mut self, at: u64, piece: &[u8]) -> Result<(), DiskFault> {
        let _ = self.calls.push(Call::Write(at, piece.len()));
        self.disk.write_at(at, piece)
    }

    fn sync(&mut self) -> Result<(), DiskFault> {
        let _ = self.calls.push(Call::Sync);
        self.disk.sync()
    }
}

/// Whatever is written, in whatever order: each read gives it, and so does the disk below after a sync.
pub(crate) fn what_is_written_is_read_and_synced(rt: &impl Abort, alloc: Global) {
    let text = text(rt, alloc);
    for seed in 0..12u64 {
        let mut dice = Dice::new(seed);
        let disk = MemDisk::plain(alloc, SIZE as u64).expect(rt, "memory");
        let mut beside = Beside::new(rt, alloc, WholePages::new(disk));
        beside.calls(rt, alloc, &text, &mut dice);
        if seed % 2 == 0 {
            let is_read = beside.reads(rt, alloc, 0, SIZE);
            assert!(rt; is_read);
        }
        let is_synced = beside.disk.sync().is_ok();
        assert!(rt; is_synced);
        let Beside {
            disk,
            bytes,
            last: _,
        } = beside;
        assert!(rt; disk.into_disk().bytes() == bytes.as_slice());
    }
}

// Writes that go on from each other, and others elsewhere: offsets, and numbers of bytes.
const WRITES: [(usize, usize); 8] = [
    (100, 65_536),
    (65_636, 65_536),
    (131_172, 5_000),
    (70_000, 65_536),
    (135_536, 3),
    (8_000, 65_536),
    (150_000, 10),
    (4_096, 65_537),
];

// Whether the calls below are those that these writes, a sync, a long write and two reads make: whole pages where long writes go on,
// each byte once and in order; a short write at once; and what is held before a write elsewhere, a sync and a read.
fn are_due(calls: &[Call]) -> bool {
    let due = [
        Call::Write(100, 65_436),
        Call::Write(65_536, 4_096),
        Call::Write(69_632, 61_440),
        Call::Write(131_072, 4_096),
        Call::Write(135_168, 1_004),
        Call::Write(70_000, 65_168),
        Call::Write(135_168, 371),
        Call::Write(8_000, 61_632),
        Call::Write(69_632, 3_904),
        Call::Write(150_000, 10),
        Call::Write(4_096, 65_536),
        Call::Write(69_632, 1),
        Call::Sync,
        Call::Write(8_000, 61_632),
        Call::Write(69_632, 3_904),
        Call::Read,
        Call::Read,
    ];
    calls == due.as_slice()
}

// A disk of zeros that writes down its calls.
fn seen_zeros(rt: &impl Abort, alloc: Global) -> Seen<MemDisk> {
    Seen {
        disk: MemDisk::plain(alloc, SIZE as u64).expect(rt, "memory"),
        calls: Vec::new(alloc),
    }
}

// Makes the writes, each of which passes.
fn make_writes<D: Disk>(rt: &impl Abort, text: &[u8], beside: &mut Beside<D>) {
    for (at, len) in WRITES {
        let is_written = beside.write(rt, at, front(rt, text, len));
        assert!(rt; is_written);
    }
}

// The calls that the disk below has written down. It has what the list has.
fn calls_of(rt: &impl Abort, beside: Beside<WholePages<Seen<MemDisk>>>) -> Vec<Call> {
    let Beside {
        disk,
        bytes,
        last: _,
    } = beside;
    let Seen { disk, calls } = disk.into_disk();
    assert!(rt; disk.bytes() == bytes.as_slice());
    calls
}

pub(crate) fn whole_pages_are_written_in_order(rt: &impl Abort, alloc: Global) {
    let text = text(rt, alloc);
    let mut beside = Beside::new(rt, alloc, WholePages::new(seen_zeros(rt, alloc)));
    make_writes(rt, &text, &mut beside);
    let is_synced = beside.disk.sync().is_ok();
    let is_written = beside.write(rt, 8_000, front(rt, &text, 65_536));
    let is_read = beside.reads(rt, alloc, 0, 10) && beside.reads(rt, alloc, 0, SIZE);
    assert!(rt; is_synced && is_written && is_read);
    let calls = calls_of(rt, beside);
    assert!(rt; are_due(&calls));
}

// Makes the writes and a sync over a disk of which the call of this number fails, and what failed once more. What was written before
// is read after a fault, and all of it stands there after the sync. Gives how many of the writes and syncs failed.
fn faults_of(rt: &impl Abort, alloc: Global, text: &[u8], number: u64) -> usize {
    let zeros = vec![in alloc; 0; SIZE].expect(rt, "memory");
    let failing = [number].to_vec(alloc).expect(rt, "memory");
    let mut beside = Beside::new(rt, alloc, WholePages::new(MemDisk::of(zeros, failing)));
    let mut faults = 0usize;
    for (at, len) in WRITES {
        assert!(rt; at <= SIZE && len <= SIZE);
        if !beside.write(rt, at, front(rt, text, len)) {
            faults = faults.saturating_add(1);
            let end = at + len;
            let is_read = beside.reads(rt, alloc, 0, at)
                && beside.reads(rt, alloc, end, SIZE.saturating_sub(end));
            let is_written = beside.write(rt, at, front(rt, text, len));
            assert!(rt; is_read && is_written);
        }
    }
    if beside.disk.sync().is_err() {
        faults = faults.saturating_add(1);
        let is_synced = beside.disk.sync().is_ok();
        assert!(rt; is_synced);
    }
    let Beside {
        disk,
        bytes,
        last: _,
    } = beside;
    let left = disk.into_disk().crash(Crash::Synced);
    assert!(rt; left.bytes() == bytes.as_slice());
    faults
}

/// A fault of a held part is one of the call that writes it, which may be made again.
pub(crate) fn a_held_part_survives_a_fault(rt: &impl Abort, alloc: Global) {
    let text = text(rt, alloc);
    for number in 0..13u64 {
        assert!(rt; faults_of(rt, alloc, &text, number) == 1);
    }
    assert!(rt; faults_of(rt, alloc, &text, 13) == 0);
}
