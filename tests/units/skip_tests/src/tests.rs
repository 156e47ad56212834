//! All that holds of a skip.
use crate::answers::{
    entries_are_skipped, no_spool_is_skipped, others_are_left, stretches_are_few,
};
use crate::failing::{a_line_fails, each_call_fails, each_stop_is_clean};

#[test]
fn answers(rt: HostRuntime) {
    let alloc = rt.alloc();
    entries_are_skipped(&rt, alloc);
    others_are_left(&rt, alloc);
    no_spool_is_skipped(&rt, alloc);
    stretches_are_few(&rt, alloc);
}

#[test]
fn what_fails(rt: HostRuntime) {
    let alloc = rt.alloc();
    a_line_fails(&rt, alloc);
    each_call_fails(&rt, alloc);
    each_stop_is_clean(&rt, alloc);
}
