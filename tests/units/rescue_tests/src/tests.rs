//! All that holds of a rescue.
use crate::damage::{
    broken_groups_put_slots_at_fault, closed_gates_end_slots, fronts_stand_in_order,
    headers_are_replaced, numbers_order_slots, short_devices_have_slots, whole_slots_are_printed,
};
use crate::failing::{a_write_fails, each_read_fails, each_read_of_a_front_fails};
use crate::restoring::{each_call_fails, each_stop_leaves_a_front, what_is_found_is_stored};

#[test]
fn damage(rt: HostRuntime) {
    let alloc = rt.alloc();
    whole_slots_are_printed(&rt, alloc);
    headers_are_replaced(&rt, alloc);
    closed_gates_end_slots(&rt, alloc);
    broken_groups_put_slots_at_fault(&rt, alloc);
    fronts_stand_in_order(&rt, alloc);
    numbers_order_slots(&rt, alloc);
    short_devices_have_slots(&rt, alloc);
}

#[test]
fn what_fails(rt: HostRuntime) {
    let alloc = rt.alloc();
    a_write_fails(&rt, alloc);
    each_read_fails(&rt, alloc);
    each_read_of_a_front_fails(&rt, alloc);
}

#[test]
fn into_another_spool(rt: HostRuntime) {
    let alloc = rt.alloc();
    what_is_found_is_stored(&rt, alloc);
    each_stop_leaves_a_front(&rt, alloc);
    each_call_fails(&rt, alloc);
}
