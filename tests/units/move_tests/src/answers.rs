//! What runs answer, and what they leave.
use crate::spools::{confirmed, copied, cursor, device, disk_of, pending, run, run_over};
use edge_memory::MemDisk;
use spool_move::MoveFault;
use std::alloc::Global;
use std::process::Abort;

/// What stands in the target once `hello` and `x` were moved with tag 7.
pub(crate) const BOTH_MOVED: &str = "0 9223372036854775815 0 0 5\n1 9223372036854775815 1 0 1\n";

/// What stands in the source before.
pub(crate) const BOTH_LEFT: &str = "0 4294967296 0 2 5\n1 4294967296 1 2 1\n";

/// A source with `hello` and `x` pending.
pub(crate) fn source(rt: &impl Abort, alloc: Global) -> Vec<u8> {
    device(rt, alloc, 1, 4096, &[b"hello", b"x"])
}

/// An empty spool of two slots.
pub(crate) fn empty(rt: &impl Abort, alloc: Global) -> Vec<u8> {
    device(rt, alloc, 2, 4096, &[])
}

/// All is moved, and what a second run finds is present.
pub(crate) fn entries_are_moved(rt: &impl Abort, alloc: Global) {
    let first = run_over(rt, alloc, &source(rt, alloc), &empty(rt, alloc), 7);
    assert!(rt; first.answer == Ok(2));
    assert!(rt; pending(rt, alloc, first.source.bytes()).as_str() == "");
    assert!(rt; pending(rt, alloc, first.target.bytes()).as_str() == BOTH_MOVED);
    let again = run_over(rt, alloc, first.source.bytes(), first.target.bytes(), 7);
    assert!(rt; again.answer == Ok(0));
    assert!(rt; pending(rt, alloc, again.target.bytes()).as_str() == BOTH_MOVED);
    // From the source as it was, too: both are present.
    let other = run_over(rt, alloc, &source(rt, alloc), first.target.bytes(), 7);
    assert!(rt; other.answer == Ok(0));
    assert!(rt; pending(rt, alloc, other.source.bytes()).as_str() == "");
    assert!(rt; pending(rt, alloc, other.target.bytes()).as_str() == BOTH_MOVED);
}

/// The source's first write fails: both entries stand in both spools, and the next run moves nothing more.
pub(crate) fn a_write_fails(rt: &impl Abort, alloc: Global) {
    let bytes = source(rt, alloc);
    for call in 0..100 {
        let mut failing = Vec::new(alloc);
        failing.push(call).expect(rt, "memory");
        let disk = MemDisk::of(copied(rt, alloc, &bytes), failing);
        let cut = run(alloc, disk, disk_of(rt, alloc, &empty(rt, alloc)), 7);
        if cut.answer == Ok(2) {
            return;
        }
        assert!(rt; cut.answer == Err(MoveFault::SourceFault));
        let next = run_over(rt, alloc, cut.source.bytes(), cut.target.bytes(), 7);
        assert!(rt; next.answer.is_ok());
        assert!(rt; pending(rt, alloc, next.source.bytes()).as_str() == "");
        assert!(rt; pending(rt, alloc, next.target.bytes()).as_str() == BOTH_MOVED);
    }
    panic!(rt; "a call fails each time")
}

/// An entry of the tag that is another's is found before anything changes: another event at its index, or an index that the source
/// has not.
pub(crate) fn strange_entries_are_found(rt: &impl Abort, alloc: Global) {
    let first = run_over(rt, alloc, &source(rt, alloc), &empty(rt, alloc), 7);
    let target = first.target.bytes();
    let other = device(rt, alloc, 1, 4096, &[b"other", b"x", b"more"]);
    let refused = run_over(rt, alloc, &other, target, 7);
    assert!(rt; refused.answer == Err(MoveFault::Strange { number: 0 }));
    assert!(rt; refused.source.bytes() == other.as_slice());
    assert!(rt; refused.target.bytes() == target);
    let shorter = device(rt, alloc, 1, 4096, &[b"hello"]);
    let past = run_over(rt, alloc, &shorter, target, 7);
    assert!(rt; past.answer == Err(MoveFault::Strange { number: 1 }));
    assert!(rt; past.source.bytes() == shorter.as_slice());
    assert!(rt; past.target.bytes() == target);
    // Where the source's entry isn't left, its event isn't looked at.
    let done = confirmed(rt, alloc, &other, &[(0, 1)]);
    let passed = run_over(rt, alloc, &done, target, 7);
    assert!(rt; passed.answer == Ok(1));
    assert!(rt;
        pending(rt, alloc, passed.target.bytes()).as_str()
            == "0 9223372036854775815 0 0 5\n1 9223372036854775815 1 0 1\n2 9223372036854775815 2 0 4\n"
    );
}

/// A target that is full: what was taken is given up by the source, and the rest stays there.
pub(crate) fn a_target_fills_up(rt: &impl Abort, alloc: Global) {
    let long = vec![in alloc; b'a'; 2003].expect(rt, "memory");
    let from = device(rt, alloc, 2, 4096, &[&long[..2000], &long]);
    let full = run_over(rt, alloc, &from, &device(rt, alloc, 1, 4096, &[]), 7);
    assert!(rt;
        full.answer
            == Err(MoveFault::Full {
                need: 2041,
                room: 2040
            })
    );
    assert!(rt; cursor(rt, alloc, full.source.bytes()) == 1);
    assert!(rt; pending(rt, alloc, full.source.bytes()).as_str() == "1 4294967296 1 2 2003\n");
    assert!(rt;
        pending(rt, alloc, full.target.bytes()).as_str() == "0 9223372036854775815 0 0 2000\n"
    );
    // Into another target the rest is moved.
    let rest = run_over(rt, alloc, full.source.bytes(), &empty(rt, alloc), 7);
    assert!(rt; rest.answer == Ok(1));
    assert!(rt; pending(rt, alloc, rest.source.bytes()).as_str() == "");
    // One that no slot of the target has room for.
    let wide = vec![in alloc; b'a'; 5000].expect(rt, "memory");
    let from = device(rt, alloc, 1, 8192, &[b"x", &wide]);
    let large = run_over(rt, alloc, &from, &empty(rt, alloc), 7);
    assert!(rt;
        large.answer
            == Err(MoveFault::TooLarge {
                need: 5038,
                most: 4078
            })
    );
    assert!(rt; cursor(rt, alloc, large.source.bytes()) == 1);
}

/// A source of which some numbers are known out of order: the others are moved.
pub(crate) fn known_numbers_are_passed(rt: &impl Abort, alloc: Global) {
    let all = device(
        rt,
        alloc,
        1,
        4096,
        &[b"a", b"bb", b"ccc", b"dddd", b"eeeee"],
    );
    let from = confirmed(rt, alloc, &all, &[(1, 2), (3, 4)]);
    let moved = run_over(rt, alloc, &from, &empty(rt, alloc), 7);
    assert!(rt; moved.answer == Ok(3));
    assert!(rt; cursor(rt, alloc, moved.source.bytes()) == 5);
    assert!(rt;
        pending(rt, alloc, moved.target.bytes()).as_str()
            == "0 9223372036854775815 0 0 1\n1 9223372036854775815 2 0 3\n2 9223372036854775815 4 0 5\n"
    );
}

/// Two sources into one target, each with a tag of its own.
pub(crate) fn tags_are_apart(rt: &impl Abort, alloc: Global) {
    let first = run_over(rt, alloc, &source(rt, alloc), &empty(rt, alloc), 0);
    let second = device(rt, alloc, 1, 4096, &[b"other"]);
    let both = run_over(rt, alloc, &second, first.target.bytes(), 4_294_967_295);
    assert!(rt; both.answer == Ok(1));
    assert!(rt;
        pending(rt, alloc, both.target.bytes()).as_str()
            == "0 9223372036854775808 0 0 5\n1 9223372036854775808 1 0 1\n2 9223372041149743103 0 0 5\n"
    );
}

/// A target that was drained between two runs, of which the first gave nothing up: what was sent may be moved again, and none is lost.
pub(crate) fn drained_between_runs(rt: &impl Abort, alloc: Global) {
    let from = source(rt, alloc);
    let first = run_over(rt, alloc, &from, &empty(rt, alloc), 7);
    let drained = confirmed(rt, alloc, first.target.bytes(), &[(0, 1)]);
    let again = run_over(rt, alloc, &from, &drained, 7);
    assert!(rt; again.answer == Ok(1));
    assert!(rt; pending(rt, alloc, again.source.bytes()).as_str() == "");
    assert!(rt;
        pending(rt, alloc, again.target.bytes()).as_str()
            == "1 9223372036854775815 1 0 1\n2 9223372036854775815 0 0 5\n"
    );
}
