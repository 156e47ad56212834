//! All that holds of messages.
use crate::notes_of::{
    faults_of_arguments, faults_of_bodies, faults_of_disks, faults_of_edges, faults_of_files,
    faults_of_frames, faults_of_ids, faults_of_json, faults_of_loads, faults_of_readers,
    faults_of_slots, faults_of_spools, faults_of_words,
};

#[test]
fn messages(rt: HostRuntime) {
    let alloc = rt.alloc();
    faults_of_spools(&rt, alloc);
    faults_of_disks(&rt, alloc);
    faults_of_ids(&rt, alloc);
    faults_of_frames(&rt, alloc);
    faults_of_bodies(&rt, alloc);
    faults_of_words(&rt, alloc);
    faults_of_files(&rt, alloc);
    faults_of_edges(&rt, alloc);
    faults_of_json(&rt, alloc);
    faults_of_readers(&rt, alloc);
    faults_of_loads(&rt, alloc);
    faults_of_slots(&rt, alloc);
    faults_of_arguments(&rt, alloc);
}
