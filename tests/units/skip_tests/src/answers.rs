//! What a skip prints and leaves.
use crate::spools::{copied, device, pending, skip, skipped, with_stretches};
use std::alloc::Global;
use std::process::Abort;

/// Three events of which the middle one is skipped.
pub(crate) const THREE: [&[u8]; 3] = [b"one", b"two \"2\"", b"three"];

/// What is printed of the middle one.
pub(crate) const LINE: &[u8] = b"{\"message\":\"two \\\"2\\\"\"}\n";

// And of the others.
const ONE: &[u8] = b"{\"message\":\"one\"}\n";

const LAST: &[u8] = b"{\"message\":\"three\"}\n";

const SHORT: &[u8] = b"{\"message\":\"x\"}\n";

/// One after another: the middle, the first, the last.
pub(crate) fn entries_are_skipped(rt: &impl Abort, alloc: Global) {
    let middle = skipped(rt, alloc, 1, &device(rt, alloc, &THREE));
    assert!(rt; middle.status == 0 && middle.printed.as_slice() == LINE);
    assert!(rt; pending(rt, alloc, middle.disk.bytes()).as_str() == "0 2 ");
    let first = skipped(rt, alloc, 0, middle.disk.bytes());
    assert!(rt; first.status == 0 && first.printed.as_slice() == ONE);
    assert!(rt; pending(rt, alloc, first.disk.bytes()).as_str() == "2 ");
    let last = skipped(rt, alloc, 2, first.disk.bytes());
    assert!(rt; last.status == 0 && last.printed.as_slice() == LAST);
    assert!(rt; pending(rt, alloc, last.disk.bytes()).is_empty());
}

/// Numbers that aren't pending: the skipped one again, the end, and beyond it. Nothing is printed or changed.
pub(crate) fn others_are_left(rt: &impl Abort, alloc: Global) {
    let middle = skipped(rt, alloc, 1, &device(rt, alloc, &THREE));
    let bytes = copied(rt, alloc, middle.disk.bytes());
    for number in [
        1,
        3,
        4,
        9_223_372_036_854_775_808,
        18_446_744_073_709_551_615,
    ] {
        let none = skipped(rt, alloc, number, &bytes);
        assert!(rt; none.status == 79 && none.printed.is_empty(), "{number}");
        assert!(rt; none.disk.bytes() == bytes.as_slice(), "{number}");
    }
    let empty = device(rt, alloc, &[]);
    let none = skipped(rt, alloc, 0, &empty);
    assert!(rt; none.status == 79 && none.printed.is_empty());
}

/// A device that is no spool.
pub(crate) fn no_spool_is_skipped(rt: &impl Abort, alloc: Global) {
    let mut bytes = device(rt, alloc, &THREE);
    for byte in bytes.iter_mut().take(1) {
        *byte = 0;
    }
    let refused = skipped(rt, alloc, 1, &bytes);
    assert!(rt; refused.status == 65 && refused.printed.is_empty());
    assert!(rt; refused.disk.bytes() == bytes.as_slice());
}

/// 240 stretches stand above the cursor: a number apart from them is printed and not skipped, and one beside them, or at the cursor, is.
pub(crate) fn stretches_are_few(rt: &impl Abort, alloc: Global) {
    let disk = with_stretches(rt, alloc);
    let bytes = copied(rt, alloc, disk.bytes());
    let apart = skip(rt, alloc, 485, disk, &[]);
    assert!(rt; apart.status == 67 && apart.printed.as_slice() == SHORT);
    assert!(rt; apart.disk.bytes() == bytes.as_slice());
    let beside = skip(rt, alloc, 480, apart.disk, &[]);
    assert!(rt; beside.status == 0);
    let apart = skip(rt, alloc, 485, beside.disk, &[]);
    assert!(rt; apart.status == 67);
    let at_cursor = skip(rt, alloc, 0, apart.disk, &[]);
    assert!(rt; at_cursor.status == 0);
    // (the cursor passed one stretch, so there is room for another)
    let apart = skip(rt, alloc, 485, at_cursor.disk, &[]);
    assert!(rt; apart.status == 0);
}
