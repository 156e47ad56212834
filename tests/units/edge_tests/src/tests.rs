//! All that holds of bytes, numbers, streams, nets and disks.
use crate::{
    accepts, bytes, disks, files, lines, marks, monitors, nets, pages, proxied, ranges, said,
    scraped, sockets, streams, waits,
};
use std::alloc::Global;
use std::process::Abort;

fn bytes_numbers_and_streams(rt: &impl Abort, alloc: Global) {
    bytes::bytes_are_read_put_and_copied(rt, alloc);
    marks::marks_in_turn(rt, alloc);
    marks::stops_at_240(rt, alloc);
    marks::knows_what_a_bitmap_knows(rt, alloc);
    streams::reads_in_steps_and_to_the_end(rt, alloc);
    streams::writes_but_those_that_fail(rt, alloc);
    streams::a_piece_is_written_whole_or_its_start_is(rt, alloc);
    streams::links_read_and_write(rt, alloc);
    streams::files_pass_bytes_and_tell_errors(rt, alloc);
}

fn nets_and_disks(rt: &impl Abort, alloc: Global) {
    nets::a_door_accepts_in_order_and_tells_its_links(rt, alloc);
    nets::a_net_binds_the_doors_of_a_place(rt, alloc);
    nets::a_net_tells_which_doors_it_bound(rt, alloc);
    nets::a_net_dials_by_a_script_and_tells_what_it_hung_up(rt, alloc);
    nets::a_net_gives_monitors_whom_nobody_asks(rt, alloc);
    disks::a_stop_and_a_crash_leave_all_or_nothing(rt, alloc);
    disks::calls_fail_by_their_numbers(rt, alloc);
    disks::gates_open_and_close_on_a_plain_disk(rt, alloc);
    disks::a_call_without_memory_changes_nothing(rt, alloc);
    pages::what_is_written_is_read_and_synced(rt, alloc);
    pages::whole_pages_are_written_in_order(rt, alloc);
    pages::a_held_part_survives_a_fault(rt, alloc);
    ranges::ranges_are_what_was_written(rt);
    ranges::ranges_have_room_for_64(rt);
    lines::lines_are_few_and_count_the_rest(rt, alloc);
    proxied::proxies_are_named(rt);
}

#[test]
fn bytes_and_disks(rt: HostRuntime) {
    let alloc = rt.alloc();
    bytes_numbers_and_streams(&rt, alloc);
    nets_and_disks(&rt, alloc);
}

#[test]
fn files_are_disks(rt: HostRuntime) {
    files::files_are_disks(&rt, &rt);
}

#[test]
fn links_and_doors(rt: HostRuntime) {
    let alloc = rt.alloc();
    sockets::sockets_are_links(&rt, &rt);
    waits::links_wait_for_a_while(&rt, &rt);
    accepts::accepts_fail_and_pass(&rt, alloc, &rt);
    said::the_net_says_what_befalls_it(&rt, alloc, &rt);
}

#[test]
fn senders_behind_proxies(rt: HostRuntime) {
    proxied::heads_come_first(&rt, &rt);
    proxied::what_has_no_head_is_never_read(&rt, &rt);
}

#[test]
fn pages_of_numbers(rt: HostRuntime) {
    scraped::pages_say_how_the_run_is(&rt, rt.alloc(), &rt);
}

#[test]
fn those_who_ask(rt: HostRuntime) {
    monitors::those_who_ask_are_answered(&rt, &rt);
}
