//! All that holds of streams, of sessions and of senders.
use crate::sending::{hec, lumber, relp};
use crate::{heads, receiving, streams};

#[test]
fn streams_sessions_and_senders(rt: HostRuntime) {
    let alloc = rt.alloc();
    heads::heads(&rt, alloc);
    heads::long_lines(&rt, alloc);
    streams::relp::streams(&rt, alloc);
    streams::relp::longest_bodies(&rt, alloc);
    streams::lumber::streams(&rt, alloc);
    streams::lumber::limits(&rt, alloc);
    streams::lumber::full(&rt, alloc);
    streams::lumber::frames(&rt, alloc);
    receiving::relp::sessions(&rt, alloc);
    receiving::relp::texts_of_the_receiver(&rt, alloc);
    receiving::lumber::connections(&rt, alloc);
    receiving::lumber::large_windows(&rt, alloc);
    relp::sessions(&rt, alloc);
    relp::answers_together(&rt, alloc);
    relp::long_texts(&rt, alloc);
    relp::windows(&rt, alloc);
    relp::every_second_entry(&rt, alloc);
    relp::recorded(&rt, alloc);
    lumber::sessions(&rt, alloc);
    lumber::long_sessions(&rt, alloc);
    lumber::wide_sessions(&rt, alloc);
    hec::sessions(&rt, alloc, hec::CONFIRMED);
    hec::sessions(&rt, alloc, hec::REFUSED);
    hec::long_sessions(&rt, alloc);
}
