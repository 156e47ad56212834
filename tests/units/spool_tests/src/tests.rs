//! All that holds of the spool, from its register and its slots up to a desk.
use crate::desk::fronts::{FRONTS, a_doubt_is_mended_by_one_entry, run_fronts};
use crate::desk::rows::{ENTRIES, IDS, KNOWN, run_desk};
use crate::desk::stops::what_was_taken_stands_whichever_call_fails;
use crate::devices::DEVICES;
use crate::free_slot::the_free_slot_is_as_defined;
use crate::groups::{FAILING, GROUPS};
use crate::known::{CHANGES, MARKS};
use crate::openings::OPENINGS;
use crate::reading_on::a_reading_walks_over_nothing_again;
use crate::script::run_script;
use crate::slots::groups::{CALLS, READS, SLOTS, a_stop_leaves_a_group_or_none};
use crate::slots::registers::REGISTERS;

#[test]
fn slots(rt: HostRuntime) {
    for script in &[REGISTERS, SLOTS, CALLS, READS] {
        run_script(&rt, rt.alloc(), script);
    }
    assert!(rt; a_stop_leaves_a_group_or_none(&rt, rt.alloc()));
}

#[test]
fn spools(rt: HostRuntime) {
    for script in &[GROUPS, FAILING, OPENINGS, MARKS, CHANGES, DEVICES] {
        run_script(&rt, rt.alloc(), script);
    }
    assert!(rt; the_free_slot_is_as_defined(&rt, rt.alloc()));
    assert!(rt; a_reading_walks_over_nothing_again(&rt, rt.alloc()));
}

#[test]
fn desks(rt: HostRuntime) {
    for script in &[ENTRIES, KNOWN, IDS] {
        run_desk(&rt, rt.alloc(), script);
    }
    run_fronts(&rt, rt.alloc(), FRONTS);
    assert!(rt; what_was_taken_stands_whichever_call_fails(&rt, rt.alloc()));
    assert!(rt; a_doubt_is_mended_by_one_entry(&rt, rt.alloc()));
}
