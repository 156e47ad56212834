//! All that the collector speaks and says.
use crate::hec::body_rows::{
    EVENT_BODIES, LIMITS_OF_EVENTS, LIMITS_OF_LINES, LIMITS_OF_QUERIES, QUERIES, RAW_BODIES,
};
use crate::hec::session_rows::{
    ALIKE, AUTHORIZATIONS, CHANNELS_AND_BODIES, EVENTS_AND_PATHS, LISTED, NO_TOKENS,
};
use crate::hec::{ids, replies};
use crate::http::limit_rows::{
    AT_64_FIELDS, BODIES, LIMITS_OF_REPLIES, LIMITS_OF_REQUESTS, OPEN_TARGETS,
};
use crate::http::reply_rows::REPLIES;
use crate::http::request_rows::{FAULTS, STREAMS};
use crate::http::window_rows::{FIRST, FULL, HELD};
use crate::http::written;
use crate::rows::{Form, check};
use hec_tokens::ListedToken;
use std::alloc::Global;
use std::process::Abort;

const TOKEN: u128 = 0x1111_1111_2222_3333_4444_5555_5555_5555;

const ACK_TOKEN: u128 = 0xaaaa_aaaa_2222_3333_4444_5555_5555_5555;

// One without acks, one with acks, two that stand there without and with acks, and `TOKEN` with acks.
const LIST: &[ListedToken] = &[
    ListedToken {
        guid: 0x2222_2222_2222_3333_4444_5555_5555_5555,
        acks: false,
    },
    ListedToken {
        guid: 0xbbbb_bbbb_2222_3333_4444_5555_5555_5555,
        acks: true,
    },
    ListedToken {
        guid: 0x3333_3333_2222_3333_4444_5555_5555_5555,
        acks: false,
    },
    ListedToken {
        guid: 0x3333_3333_2222_3333_4444_5555_5555_5555,
        acks: true,
    },
    ListedToken {
        guid: 0x5555_5555_2222_3333_4444_5555_5555_5555,
        acks: true,
    },
    ListedToken {
        guid: 0x5555_5555_2222_3333_4444_5555_5555_5555,
        acks: false,
    },
    ListedToken {
        guid: 0x1111_1111_2222_3333_4444_5555_5555_5555,
        acks: true,
    },
];

// How many bytes the pieces have in which streams are fed.
const SIZES: &[usize] = &[1, 2, 3, 7, 64, 150, 1000];

// The one size of what isn't read in pieces.
const WHOLE: &[usize] = &[1];

fn streams(rt: &impl Abort, alloc: Global) {
    for table in [STREAMS, FAULTS] {
        check(rt, alloc, &Form::Requests, SIZES, table);
    }
    check(
        rt,
        alloc,
        &Form::Requests,
        &[100, 20_000],
        LIMITS_OF_REQUESTS,
    );
    check(rt, alloc, &Form::Requests, &[100], AT_64_FIELDS);
    check(rt, alloc, &Form::Requests, &[65_536], BODIES);
    check(rt, alloc, &Form::Requests, &[20_000], OPEN_TARGETS);
    check(rt, alloc, &Form::Replies, SIZES, REPLIES);
    check(
        rt,
        alloc,
        &Form::Replies,
        &[1, 7, 4_096, 32_768],
        LIMITS_OF_REPLIES,
    );
}

fn windows(rt: &impl Abort, alloc: Global) {
    check(rt, alloc, &Form::Held, WHOLE, HELD);
    check(rt, alloc, &Form::Filled, WHOLE, FULL);
    check(rt, alloc, &Form::AtFault, WHOLE, FAULTS);
    check(rt, alloc, &Form::First, WHOLE, FIRST);
}

fn bodies(rt: &impl Abort, alloc: Global) {
    for table in [EVENT_BODIES, LIMITS_OF_EVENTS] {
        check(rt, alloc, &Form::Events, WHOLE, table);
    }
    for table in [RAW_BODIES, LIMITS_OF_LINES] {
        check(rt, alloc, &Form::Lines, WHOLE, table);
    }
    for table in [QUERIES, LIMITS_OF_QUERIES] {
        check(rt, alloc, &Form::Query, WHOLE, table);
    }
}

fn sessions(rt: &impl Abort, alloc: Global) {
    for table in [EVENTS_AND_PATHS, AUTHORIZATIONS, CHANNELS_AND_BODIES] {
        check(
            rt,
            alloc,
            &Form::Session(Some(TOKEN), Some(ACK_TOKEN), &[]),
            WHOLE,
            table,
        );
    }
    check(
        rt,
        alloc,
        &Form::Session(Some(TOKEN), Some(TOKEN), &[]),
        WHOLE,
        ALIKE,
    );
    check(rt, alloc, &Form::Session(None, None, &[]), WHOLE, NO_TOKENS);
    check(
        rt,
        alloc,
        &Form::Session(Some(TOKEN), None, LIST),
        WHOLE,
        LISTED,
    );
}

#[test]
fn what_the_collector_speaks_and_says(rt: HostRuntime) {
    let alloc = rt.alloc();
    streams(&rt, alloc);
    windows(&rt, alloc);
    bodies(&rt, alloc);
    sessions(&rt, alloc);
    written::replies_are_written(&rt, alloc);
    replies::answers(&rt, alloc);
    replies::faults(&rt, alloc);
    ids::tables(&rt, alloc);
}
