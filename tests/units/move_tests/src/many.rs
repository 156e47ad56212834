//! More entries than are walked at a time.
use crate::spools::{plain, take_texts};
use edge_memory::MemDisk;
use spool_log::Spool;
use spool_move::{MoveFault, move_pending};
use std::alloc::Global;
use std::process::Abort;

/// So many events of one byte, pending in a new spool.
fn many(rt: &impl Abort, alloc: Global, count: usize) -> Spool<MemDisk> {
    let mut texts: Vec<&[u8]> = Vec::new(alloc);
    for _ in 0..count {
        texts.push(b"x").expect(rt, "memory");
    }
    let mut spool = plain(rt, alloc, 2, 16_384);
    take_texts(rt, alloc, &mut spool, &texts);
    spool
}

/// 300 entries are moved in order, and the register is written after each 128 of them and at the end.
pub(crate) fn pages_are_given_up(rt: &impl Abort, alloc: Global) {
    let mut from = many(rt, alloc, 300);
    let before = from.memory.register.ordinal();
    let mut onto = plain(rt, alloc, 2, 16_384);
    assert!(rt; move_pending(alloc, &mut from, &mut onto, 3) == Ok(300));
    assert!(rt; from.memory.register.ordinal() == before.saturating_add(3));
    assert!(rt; from.cursor() == 300);
    let there = onto.pending(0, 1000).ok().expect(rt, "entries");
    assert!(rt; there.len() == 300);
    for (place, one) in there.iter().enumerate() {
        assert!(rt; one.number == place as u64 && one.entry.index == place as u64);
    }
}

/// A target with room for 200 of them: the source keeps the others, and they are moved into another one.
pub(crate) fn the_rest_is_kept(rt: &impl Abort, alloc: Global) {
    let mut from = many(rt, alloc, 300);
    let mut onto = plain(rt, alloc, 1, 7818);
    let full = MoveFault::Full { need: 39, room: 0 };
    assert!(rt; move_pending(alloc, &mut from, &mut onto, 3) == Err(full));
    assert!(rt; from.cursor() == 200);
    let mut other = plain(rt, alloc, 2, 16_384);
    assert!(rt; move_pending(alloc, &mut from, &mut other, 3) == Ok(100));
    assert!(rt; from.cursor() == 300);
}
