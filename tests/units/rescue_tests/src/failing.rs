//! Reads and writes that fail.
use crate::devices::{SLOTS, copied, damaged, device, is_as, rescue};
use bridge_rescue::Why;
use edge_memory::MemDisk;
use std::alloc::Global;
use std::process::Abort;

/// The output takes nothing, and the device stays as it was.
pub(crate) fn a_write_fails(rt: &impl Abort, alloc: Global) {
    let bytes = device(rt, alloc);
    let disk = MemDisk::of(copied(rt, alloc, &bytes), Vec::new(alloc));
    let cut = rescue(rt, alloc, None, disk, &[0]);
    assert!(rt; cut.status == 72 && cut.printed.is_empty());
    assert!(rt; cut.disk.bytes() == bytes.as_slice());
    let Some(report) = &cut.report else {
        panic!(rt; "no report");
    };
    assert!(rt; report.sound == 3 && report.printed.is_none() && report.faults.is_empty());
}

/// Each call of the disk fails in turn. None is passed over: the status is 73. Where it was a slot's, all others are printed.
pub(crate) fn each_read_fails(rt: &impl Abort, alloc: Global) {
    let bytes = device(rt, alloc);
    let mut failures = 0u64;
    let mut unread = 0u64;
    for call in 0..100u64 {
        let mut failing = Vec::new(alloc);
        failing.push(call).ok().expect(rt, "memory");
        let disk = MemDisk::of(copied(rt, alloc, &bytes), failing);
        let ending = rescue(rt, alloc, None, disk, &[]);
        assert!(rt; ending.disk.bytes() == bytes.as_slice());
        if ending.status == 0 {
            break;
        }
        failures = call.saturating_add(1);
        assert!(rt; ending.status == 73, "{call}");
        let Some(report) = &ending.report else {
            assert!(rt; call == 0 && ending.printed.is_empty());
            continue;
        };
        if let Some(fault) = report.faults.first() {
            unread = unread.saturating_add(1);
            let place = fault.place as usize;
            assert!(rt; place < 3 && fault.why == Why::Unread);
            let left = [b"defg".as_slice(), b"abcg".as_slice(), b"abcdef".as_slice()][place];
            let due = [(fault.place, Why::Unread, SLOTS[place] as u64)];
            let gaps: &[(u64, u64)] = if place == 1 { &[(3, 6)] } else { &[] };
            is_as(rt, alloc, &ending, 73, left, 2, &due, gaps);
        } else {
            // (a slot that was sound is not read again: no line was printed, since so few are held until all are made)
            assert!(rt; report.printed.is_none() && ending.printed.is_empty());
        }
    }
    // Each slot was looked at by more than one call.
    assert!(rt; failures > 6 && failures < 99 && unread >= 6);
}

/// Each call of the disk fails in turn, where the last group of a slot is at fault. The status is 73: the slot is one that was not read, and
/// all others are printed, or the run ended as it printed.
pub(crate) fn each_read_of_a_front_fails(rt: &impl Abort, alloc: Global) {
    // (the origin of the third entry of the second slot)
    let bytes = damaged(rt, alloc, SLOTS[1] + 17 + 2 * 1038 + 9, &[9]);
    let mut unread = 0u64;
    let mut stopped = 0u64;
    for call in 0..100u64 {
        let mut failing = Vec::new(alloc);
        failing.push(call).ok().expect(rt, "memory");
        let disk = MemDisk::of(copied(rt, alloc, &bytes), failing);
        let ending = rescue(rt, alloc, None, disk, &[]);
        assert!(rt; ending.disk.bytes() == bytes.as_slice());
        if ending.status == 65 {
            break;
        }
        assert!(rt; ending.status == 73, "{call}");
        let Some(report) = &ending.report else {
            continue;
        };
        match report.faults.iter().find(|fault| fault.why == Why::Unread) {
            Some(fault) => {
                unread = unread.saturating_add(u64::from(fault.place == 1));
                assert!(rt; report.printed.is_some());
            }
            None => {
                stopped = stopped.saturating_add(1);
                assert!(rt; report.printed.is_none() && ending.printed.is_empty());
            }
        }
    }
    // (the slot with the fault is looked at twice, and read once more as it is printed)
    assert!(rt; unread >= 3 && stopped >= 3);
}
