//! Each kind of damage, and what is printed of the other slots.
use crate::devices::{SIZE, SLOTS, damaged, device, front, is_as, rescued};
use bridge_rescue::{Layout, Why};
use std::alloc::Global;
use std::process::Abort;

// Where the first group of a slot begins, and how many bytes each has: its head and an entry with a text of 1,000 bytes.
const FIRST: usize = 17;

const GROUP: usize = 1038;

/// A device that is whole gives all, and one whose cells are gone too, since they aren't read.
pub(crate) fn whole_slots_are_printed(rt: &impl Abort, alloc: Global) {
    let whole = rescued(rt, alloc, None, &device(rt, alloc));
    is_as(rt, alloc, &whole, 0, b"abcdefg", 3, &[], &[]);
    let zeros = vec![in alloc; 0; 8192].expect(rt, "memory");
    let cells = rescued(rt, alloc, None, &damaged(rt, alloc, 4096, &zeros));
    is_as(rt, alloc, &cells, 0, b"abcdefg", 3, &[], &[]);
}

/// A header that tells nothing is a fault, and given words take its place.
pub(crate) fn headers_are_replaced(rt: &impl Abort, alloc: Global) {
    let nameless = damaged(rt, alloc, 0, b"X");
    let refused = rescued(rt, alloc, None, &nameless);
    assert!(rt; refused.status == 65 && refused.printed.is_empty() && refused.report.is_none());
    let wild = damaged(rt, alloc, 8, &[0, 0, 4, 1]);
    let refused = rescued(rt, alloc, None, &wild);
    assert!(rt; refused.status == 65 && refused.printed.is_empty() && refused.report.is_none());
    let given = Layout::of(3, SIZE as u64);
    for device in [nameless, wild] {
        let all = rescued(rt, alloc, given, &device);
        is_as(rt, alloc, &all, 0, b"abcdefg", 3, &[], &[]);
    }
    let few = rescued(rt, alloc, Layout::of(2, SIZE as u64), &device(rt, alloc));
    is_as(rt, alloc, &few, 0, b"abcdef", 2, &[], &[]);
    assert!(rt; Layout::of(0, 4096).is_none() && Layout::of(1025, 4096).is_none());
    assert!(rt; Layout::of(1, 4095).is_none() && Layout::of(1, 1_073_741_825).is_none());
}

/// A gate that is closed ends its slot there; one of a slot closes the slot; and a slot of zeros is closed. What is missing then between two
/// slots is told.
pub(crate) fn closed_gates_end_slots(rt: &impl Abort, alloc: Global) {
    let slot = SLOTS[1];
    let group = rescued(
        rt,
        alloc,
        None,
        &damaged(rt, alloc, slot + FIRST + GROUP, &[0]),
    );
    is_as(rt, alloc, &group, 65, b"abcdg", 3, &[], &[(4, 6)]);
    let gate = rescued(rt, alloc, None, &damaged(rt, alloc, slot, &[0]));
    is_as(rt, alloc, &gate, 65, b"abcg", 2, &[], &[(3, 6)]);
    let zeros = vec![in alloc; 0; SIZE].expect(rt, "memory");
    let none = rescued(rt, alloc, None, &damaged(rt, alloc, slot, &zeros));
    is_as(rt, alloc, &none, 65, b"abcg", 2, &[], &[(3, 6)]);
}

/// A group that is at fault puts its slot at fault, at the group's gate: the groups before it are printed, and nothing after it. The numbers
/// of what isn't printed are missing.
pub(crate) fn broken_groups_put_slots_at_fault(rt: &impl Abort, alloc: Global) {
    let gate = SLOTS[1] + FIRST + GROUP;
    let due = [(1, Why::Broken { before: 1 }, gate as u64)];
    // (its length, its count, its entry's origin, and its entry's length)
    for (offset, bytes) in [
        (1, [0, 0, 0, 9]),
        (5, [0, 0, 0, 2]),
        (9, [9, 0, 0, 0]),
        (34, [0, 0, 3, 231]),
    ] {
        let broken = rescued(rt, alloc, None, &damaged(rt, alloc, gate + offset, &bytes));
        is_as(rt, alloc, &broken, 65, b"abcdg", 2, &due, &[(4, 6)]);
    }
    for (count, letters, missing) in [
        (0, b"abcg".as_slice(), (3, 6)),
        (2, b"abcdeg".as_slice(), (5, 6)),
    ] {
        let at = SLOTS[1] + FIRST + count * GROUP;
        let broken = rescued(rt, alloc, None, &damaged(rt, alloc, at + 1, &[255]));
        let before = count as u64;
        let due = [(1, Why::Broken { before }, at as u64)];
        is_as(rt, alloc, &broken, 65, letters, 2, &due, &[missing]);
    }
    // A gate that is open over what isn't a group, at the end of a slot.
    let end = SLOTS[0] + FIRST + 3 * GROUP;
    let opened = rescued(rt, alloc, None, &damaged(rt, alloc, end, &[1, 255, 255]));
    is_as(
        rt,
        alloc,
        &opened,
        65,
        b"abcdefg",
        2,
        &[(0, Why::Broken { before: 3 }, end as u64)],
        &[],
    );
}

/// Two slots with a group at fault are printed in order of their first numbers, each up to its fault; but one whose numbers are too great
/// isn't.
pub(crate) fn fronts_stand_in_order(rt: &impl Abort, alloc: Global) {
    let mut device = damaged(rt, alloc, SLOTS[0] + FIRST + 2 * GROUP + 1, &[255]);
    let second = SLOTS[1] + FIRST + GROUP;
    change(&mut device, second + 5, 0);
    change(&mut device, second + 8, 9);
    let due = [
        (
            0,
            Why::Broken { before: 2 },
            (SLOTS[0] + FIRST + 2 * GROUP) as u64,
        ),
        (1, Why::Broken { before: 1 }, second as u64),
    ];
    let both = rescued(rt, alloc, None, &device);
    is_as(rt, alloc, &both, 65, b"abdg", 1, &due, &[(2, 3), (4, 6)]);
    // (the first slot is numbered from 9 on)
    change(&mut device, SLOTS[0] + 16, 9);
    let later = rescued(rt, alloc, None, &device);
    is_as(rt, alloc, &later, 65, b"dgab", 1, &due, &[(4, 6), (7, 9)]);
    change(&mut device, SLOTS[0] + 9, 128);
    let high = rescued(rt, alloc, None, &device);
    let due = [(0, Why::TooHigh, SLOTS[0] as u64), due[1]];
    is_as(rt, alloc, &high, 65, b"dg", 1, &due, &[(4, 6)]);
}

// Another byte of the device.
fn change(device: &mut [u8], at: usize, byte: u8) {
    if let Some(place) = device.get_mut(at) {
        *place = byte;
    }
}

/// A slot is printed by its own first number, whatever that is; but where it is too great the slot is at fault.
pub(crate) fn numbers_order_slots(rt: &impl Abort, alloc: Global) {
    let first = SLOTS[0] + 9;
    let later = rescued(
        rt,
        alloc,
        None,
        &damaged(rt, alloc, first, &[0, 0, 0, 0, 0, 0, 0, 9]),
    );
    is_as(rt, alloc, &later, 65, b"defgabc", 3, &[], &[(7, 9)]);
    let ordinal = rescued(rt, alloc, None, &damaged(rt, alloc, SLOTS[1] + 1, &[255]));
    is_as(rt, alloc, &ordinal, 0, b"abcdefg", 3, &[], &[]);
    let high = rescued(rt, alloc, None, &damaged(rt, alloc, first, &[128]));
    let due = [(0, Why::TooHigh, SLOTS[0] as u64)];
    is_as(rt, alloc, &high, 65, b"defg", 2, &due, &[]);
}

/// A device that is cut off has the slots before that, and several faults are told in order of place.
pub(crate) fn short_devices_have_slots(rt: &impl Abort, alloc: Global) {
    let device = device(rt, alloc);
    let cut = rescued(rt, alloc, None, &front(rt, alloc, &device, SLOTS[2] + 100));
    let due = [(2, Why::Cut, 20_580)];
    is_as(rt, alloc, &cut, 65, b"abcdef", 2, &due, &[]);
    let broken = damaged(rt, alloc, SLOTS[0] + FIRST + 1, &[255]);
    let both = rescued(rt, alloc, None, &front(rt, alloc, &broken, SLOTS[1] + 5));
    let gate = (SLOTS[0] + FIRST) as u64;
    let due = [
        (0, Why::Broken { before: 0 }, gate),
        (1, Why::Cut, 16_389),
        (2, Why::Cut, 16_389),
    ];
    is_as(rt, alloc, &both, 65, b"", 0, &due, &[]);
    let tiny = rescued(rt, alloc, None, &front(rt, alloc, &device, 19));
    assert!(rt; tiny.status == 65 && tiny.report.is_none());
}
