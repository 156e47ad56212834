//! The ranges of a disk that were written since its last good sync, over a table of writes.
use edge_file::{ByteRange, Unsynced};
use std::process::Abort;

fn range_of(at: u32, len: u32) -> ByteRange {
    ByteRange::new(u64::from(at), u64::from(len))
}

// Whether these ranges are kept, each by its offset and its number of bytes, and in this order.
fn keeps(unsynced: &Unsynced, want: &[(u32, u32)]) -> bool {
    let ranges = unsynced.ranges();
    ranges.len() == want.len()
        && ranges
            .iter()
            .zip(want)
            .all(|(range, &(at, len))| *range == range_of(at, len))
}

// Notes the writes in turn, each of which has room, and sees which ranges are kept.
fn check_notes(rt: &impl Abort, writes: &[(u32, u32)], want: &[(u32, u32)]) {
    let mut unsynced = Unsynced::new();
    for &(at, len) in writes {
        let is_noted = unsynced.note(range_of(at, len));
        assert!(rt; is_noted);
    }
    assert!(rt; keeps(&unsynced, want));
}

pub(crate) fn ranges_are_what_was_written(rt: &impl Abort) {
    check_notes(rt, &[], &[]);
    check_notes(rt, &[(4, 2), (0, 2)], &[(4, 2), (0, 2)]);
    // The byte between two ranges wasn't written.
    check_notes(rt, &[(0, 2), (3, 2)], &[(0, 2), (3, 2)]);
    // One after the other, in either order.
    check_notes(rt, &[(0, 2), (2, 3)], &[(0, 5)]);
    check_notes(rt, &[(2, 3), (0, 2)], &[(0, 5)]);
    // One over the other, within it, round it, and the same again.
    check_notes(rt, &[(0, 4), (3, 3)], &[(0, 6)]);
    check_notes(rt, &[(0, 9), (3, 3)], &[(0, 9)]);
    check_notes(rt, &[(3, 3), (0, 9)], &[(0, 9)]);
    check_notes(rt, &[(3, 3), (3, 3)], &[(3, 3)]);
    // One that lies between two joins them, and leaves a third where it is.
    check_notes(rt, &[(0, 2), (9, 1), (4, 2), (2, 2)], &[(9, 1), (0, 6)]);
    // A group in pieces is one range.
    check_notes(
        rt,
        &[(7, 65536), (65543, 65536), (131_079, 5)],
        &[(7, 131_077)],
    );
}

pub(crate) fn ranges_have_room_for_64(rt: &impl Abort) {
    let mut unsynced = Unsynced::new();
    for at in 0..64u32 {
        let is_noted = unsynced.note(range_of(3 * at, 1));
        assert!(rt; is_noted);
    }
    // One more that lies apart isn't noted, and changes nothing.
    let is_noted = unsynced.note(range_of(500, 1));
    assert!(rt; !is_noted && unsynced.ranges().len() == 64);
    // One that joins two makes room for it.
    let is_joined = unsynced.note(range_of(0, 3));
    let is_noted = unsynced.note(range_of(500, 1));
    assert!(rt; is_joined && is_noted && unsynced.ranges().len() == 64);
    unsynced.clear();
    assert!(rt; keeps(&unsynced, &[]));
}
