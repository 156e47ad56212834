//! All that holds of callers that share a desk, in turn and in threads: where each take is stored by itself, and where takes of several may
//! be stored as one group.
use crate::turns::{answers, crowd, joint, meanwhile, pair, threads};
use crate::workers::{rows, serving};
use std::alloc::Global;
use std::process::Abort;
use std::sync::Wait;
use std::thread::Threads;

fn share_desks(rt: &(impl Abort + Threads + Wait + Sync), alloc: Global, group: bool) {
    for row in &answers::ROWS {
        pair::check(rt, alloc, row, group);
    }
    for (seats, counts) in threads::ROWS {
        assert!(rt;
            threads::have_taken(rt, alloc, seats, group, counts),
            "{seats} passes"
        );
    }
    for case in &rows::CASES {
        serving::check(rt, alloc, case, group);
    }
}

#[test]
fn threads_share_desks(rt: HostRuntime) {
    share_desks(&rt, rt.alloc(), false);
}

#[test]
fn threads_share_desks_in_groups(rt: HostRuntime) {
    share_desks(&rt, rt.alloc(), true);
}

#[test]
fn takes_are_stored_together(rt: HostRuntime) {
    let alloc = rt.alloc();
    for row in &joint::ROWS {
        joint::check(&rt, alloc, row);
    }
}

#[test]
fn crowd_is_told_where_its_entries_stand(rt: HostRuntime) {
    crowd::check(&rt, rt.alloc());
}

#[test]
fn ids_and_level_wait_for_no_sync(rt: HostRuntime) {
    meanwhile::check(&rt, rt.alloc(), false);
    meanwhile::check(&rt, rt.alloc(), true);
}
