//! All that holds of events and their forms.
use crate::json::brackets::{ARRAYS, DEPTHS, NEXT, OBJECTS};
use crate::json::scalars::{CHARACTERS, LITERALS, NUMBERS, STRINGS, WHITE_SPACE};
use crate::json::{nexts, objects, values};
use crate::words::note_texts;
use crate::words::rows::{COMMANDS, NO_COMMANDS};
use crate::words::rows_of_drain::{DRAINS, NO_DRAINS};
use crate::words::rows_of_move::{MOVES, NO_MOVES};
use crate::words::rows_of_replay::{NO_REPLAYS, REPLAYS};
use crate::words::rows_of_serve::{NO_SERVES, SERVES};
use crate::words::token_lists::LISTS;
use crate::{entries, maps, words};
use std::alloc::Global;
use std::process::Abort;

fn json(rt: &impl Abort, alloc: Global) {
    for table in [
        WHITE_SPACE,
        LITERALS,
        NUMBERS,
        STRINGS,
        CHARACTERS,
        ARRAYS,
        OBJECTS,
        DEPTHS,
    ] {
        values::check(rt, alloc, table);
    }
    nexts::check(rt, alloc, NEXT);
    values::fronts_are_cut(rt);
    values::long_strings_are_read_as_short_ones(rt, alloc);
    objects::objects(rt, alloc);
    objects::members_in_order(rt, alloc);
}

#[test]
fn events_and_their_forms(rt: HostRuntime) {
    let alloc = rt.alloc();
    json(&rt, alloc);
    entries::an_entry_is_written_and_read(&rt, alloc);
    entries::a_pair_is_read(&rt);
    entries::each_fault_has_its_place(&rt, alloc);
    maps::each_event_has_its_forms(&rt, alloc);
    for table in [
        COMMANDS,
        NO_COMMANDS,
        REPLAYS,
        NO_REPLAYS,
        DRAINS,
        NO_DRAINS,
        SERVES,
        NO_SERVES,
        MOVES,
        NO_MOVES,
    ] {
        words::check(&rt, alloc, table);
    }
    words::check_lists(&rt, alloc, LISTS);
    words::fault_texts(&rt);
    note_texts::texts(&rt, alloc);
    note_texts::lines(&rt, alloc);
}
