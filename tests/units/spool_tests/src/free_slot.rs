//! Where a group goes, and when no slot is free, against the definition.
use crate::calls::opened;
use crate::made::event_of;
use crate::play::plain;
use edge_memory::MemDisk;
use spool_answers::{Receipt, TakeFault};
use spool_log::{Opening, Spool};
use std::alloc::Global;
use std::process::Abort;

/// What an empty slot of 4,096 bytes has room for.
const MOST: u64 = 4078;

/// An open slot: its first number, how many entries it has, and how many bytes they use.
#[derive(Clone, Copy)]
struct Row {
    first: u64,
    count: u64,
    used: u64,
}

/// A spool of three slots as its definition has it. A slot that is closed has no row.
#[derive(Drop)]
struct Model {
    rows: [Option<Row>; 3],
    active: usize,
    cursor: u64,
    end: u64,
    /// How often a take found no free slot, and how often it emptied one.
    full: u32,
    reused: u32,
}

impl Model {
    fn room(&self) -> u64 {
        match self.rows.get(self.active) {
            Some(Some(row)) => MOST.saturating_sub(row.used),
            _ => 0,
        }
    }

    /// The place of the free slot that is taken: the closed one of lowest place, else that with the least
    /// first number of those that aren't active and whose entries are all below the cursor.
    fn free(&self) -> Option<usize> {
        let mut least = u64::MAX;
        let mut free = None;
        for (place, row) in self.rows.iter().enumerate() {
            match row {
                None => return Some(place),
                Some(row) => {
                    let known = row.first.saturating_add(row.count) <= self.cursor;
                    if place != self.active && known && row.first < least {
                        least = row.first;
                        free = Some(place);
                    }
                }
            }
        }
        free
    }

    fn take(&mut self, need: u64) -> Result<Receipt, TakeFault> {
        let room = self.room();
        if need > room {
            let Some(place) = self.free() else {
                self.full = self.full.saturating_add(1);
                return Err(TakeFault::Full { need, room });
            };
            if let Some(row) = self.rows.get_mut(place) {
                if row.is_some() {
                    self.reused = self.reused.saturating_add(1);
                }
                *row = Some(Row {
                    first: self.end,
                    count: 0,
                    used: 0,
                });
            }
            self.active = place;
        }
        if let Some(Some(row)) = self.rows.get_mut(self.active) {
            row.count = row.count.saturating_add(1);
            row.used = row.used.saturating_add(need);
        }
        let first = self.end;
        self.end = first.saturating_add(1);
        Ok(Receipt { first, count: 1 })
    }
}

/// A number from 0 up to and without `below`, which is not 0, and the next state of the generator.
fn draw(state: u64, below: u64) -> (u64, u64) {
    let next = state
        .wrapping_mul(6_364_136_223_846_793_005)
        .wrapping_add(1_442_695_040_888_963_407);
    ((next >> 33).checked_rem(below).unwrap_or(0), next)
}

// Takes an event of so many bytes, and answers whether the spool does as the model.
fn takes_alike(
    rt: &impl Abort,
    alloc: Global,
    spool: &mut Spool<MemDisk>,
    model: &mut Model,
    len: u64,
) -> bool {
    let group = [event_of(rt, alloc, 4_294_967_296, 2, len)];
    // 9 bytes of the group, and 29 of the entry before its text.
    let want = model.take(len.saturating_add(38));
    spool.take(&group) == want
}

// Confirms up to a number, and answers whether that is done.
fn confirms(spool: &mut Spool<MemDisk>, upto: u64) -> bool {
    let upto = upto.min(spool.end());
    spool.confirm(upto).is_ok()
}

// Whether the spool stands as the model.
fn stands_alike(spool: &Spool<MemDisk>, model: &Model) -> bool {
    let place = spool.memory.active.at.saturating_sub(12_288) / 4096;
    spool.end() == model.end
        && spool.cursor() == model.cursor
        && spool.room() == model.room()
        && place == model.active as u64
}

// Makes 200 steps, and answers whether the spool does as the model at each. Of each four steps about three take an
// event of up to 2,400 bytes, and the others confirm up to a number between the cursor and the end.
fn goes_alike(
    rt: &impl Abort,
    alloc: Global,
    spool: &mut Spool<MemDisk>,
    model: &mut Model,
) -> bool {
    let mut state = 1;
    for _ in 0..200 {
        let (choice, next) = draw(state, 4);
        let below = if choice > 0 {
            2401
        } else {
            model.end.saturating_sub(model.cursor).saturating_add(1)
        };
        let (drawn, next) = draw(next, below);
        state = next;
        let alike = if choice > 0 {
            takes_alike(rt, alloc, spool, model, drawn)
        } else {
            model.cursor = model.cursor.saturating_add(drawn);
            confirms(spool, model.cursor)
        };
        if !alike || !stands_alike(spool, model) {
            return false;
        }
    }
    true
}

/// Whether an empty spool of three slots does as the model, which finds no free slot at times, and empties one.
pub(crate) fn the_free_slot_is_as_defined(rt: &impl Abort, alloc: Global) -> bool {
    let disk = plain(rt, alloc, 3, 4096);
    let mut spool = opened(rt, alloc, disk, Opening::Keep);
    let empty = Row {
        first: 0,
        count: 0,
        used: 0,
    };
    let mut model = Model {
        rows: [Some(empty), None, None],
        active: 0,
        cursor: 0,
        end: 0,
        full: 0,
        reused: 0,
    };
    let alike = goes_alike(rt, alloc, &mut spool, &mut model);
    alike && model.full >= 10 && model.reused >= 10
}
