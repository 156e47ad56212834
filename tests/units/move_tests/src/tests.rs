//! All that holds of a move.
use crate::answers::{
    a_target_fills_up, a_write_fails, drained_between_runs, entries_are_moved,
    known_numbers_are_passed, strange_entries_are_found, tags_are_apart,
};
use crate::many::{pages_are_given_up, the_rest_is_kept};
use crate::stops::{each_stop_goes_on, stopped_again_and_again};

#[test]
fn answers(rt: HostRuntime) {
    let alloc = rt.alloc();
    entries_are_moved(&rt, alloc);
    a_write_fails(&rt, alloc);
    strange_entries_are_found(&rt, alloc);
    a_target_fills_up(&rt, alloc);
    known_numbers_are_passed(&rt, alloc);
    tags_are_apart(&rt, alloc);
    drained_between_runs(&rt, alloc);
}

#[test]
fn runs_that_are_stopped(rt: HostRuntime) {
    each_stop_goes_on(&rt, rt.alloc());
    stopped_again_and_again(&rt, rt.alloc());
}

#[test]
fn many_entries(rt: HostRuntime) {
    pages_are_given_up(&rt, rt.alloc());
    the_rest_is_kept(&rt, rt.alloc());
}
