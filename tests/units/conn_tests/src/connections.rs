//! All that holds of whole connections.
use crate::claims::memory_is_claimed;
use crate::ends::end_text;
use crate::faults::a_failed_call_of_the_disk_ends_the_connection;
use crate::fields::{bytes_of, check_form, numbers_of};
use crate::harness::{check_bytes, is_grouped, repeated, serve};
use crate::reads::one_read_brings_long_runs;
use crate::{
    hec_endings, hec_past, hec_refused, hec_rows, hec_unsaid, lumberjack_endings, lumberjack_rows,
    relp_endings, relp_rows, relp_runs,
};
use edge_io::Proto;
use event_form::{Attended, Talk};
use std::alloc::Global;
use std::process::Abort;

// The words of a row: `row NAME`; what [`serve`] reads; `steps`, how many bytes a read brings at most, each in turn; and what is left:
// `ends HOW, COUNT taken`, and the bytes of `out` and `entries`.
const WORDS: &str = "row in steps slot disk reads writes ids group ends out entries";

// Serves a row's input, at most so many bytes in a read.
fn check(rt: &impl Abort, alloc: Global, proto: Proto, row: &str, step: usize) {
    assert!(rt; step > 0, "no step");
    let left = serve(rt, alloc, proto, row, &[], 1, step).expect(rt, "not opened");
    let Attended { talk, taken } = left.attended;
    let end = end_text(rt, alloc, talk);
    let ended = format!(in alloc; "{end}, {taken} taken").expect(rt, "memory");
    check_bytes(rt, alloc, row, "ends", ended.as_bytes());
    check_bytes(rt, alloc, row, "out", &left.written);
    check_bytes(rt, alloc, row, "entries", &left.entries);
    assert!(rt; left.count == taken, "another count of entries in {row}");
    let (fewest, most) = left.asked;
    let is_long = is_grouped(rt, row) && most == 65_536;
    assert!(rt;
        fewest == 1_024 && (most == 1_024 || most == 8_192 || is_long),
        "reads of other lengths in {row}"
    );
}

// Serves a row's input in each of its steps.
fn check_row(rt: &impl Abort, alloc: Global, proto: Proto, row: &str) {
    let steps = numbers_of(rt, alloc, row, "steps");
    assert!(rt; !steps.is_empty(), "no step: {row}");
    for step in &steps {
        check(rt, alloc, proto, row, *step as usize);
    }
}

// Each table: its protocol, its rows, and how many these are.
fn each_row_is_served(rt: &impl Abort, alloc: Global) {
    for (proto, rows, count) in [
        (Proto::Relp, relp_rows::ROWS, 11),
        (Proto::Relp, relp_endings::ENDINGS, 6),
        (Proto::Relp, relp_runs::RUNS, 7),
        (Proto::Lumberjack, lumberjack_rows::ROWS, 11),
        (Proto::Lumberjack, lumberjack_endings::ENDINGS, 17),
        (Proto::Hec, hec_rows::ROWS, 5),
        (Proto::Hec, hec_refused::REFUSED, 2),
        (Proto::Hec, hec_endings::ENDINGS, 11),
        (Proto::Hec, hec_unsaid::UNSAID, 7),
    ] {
        check_form(rt, rows, WORDS, count);
        for row in rows.split("\n\n") {
            check_row(rt, alloc, proto, row);
        }
    }
}

// Where reads end in the middle of bodies that are refused anyway, they are read past. A read that brings all brings them whole.
fn refused_bodies_are_read_past(rt: &impl Abort, alloc: Global) {
    check_form(rt, hec_past::PAST, WORDS, 10);
    for row in hec_past::PAST.split("\n\n") {
        for step in 1..hec_past::STEPS {
            check(rt, alloc, Proto::Hec, row, step);
        }
        check_row(rt, alloc, Proto::Hec, row);
    }
}

// A connection that isn't closed goes on, whatever number of requests came.
fn a_thousand_requests_are_answered(rt: &impl Abort, alloc: Global) {
    let row = hec_rows::ONE;
    check_form(rt, row, WORDS, 1);
    let left = serve(rt, alloc, Proto::Hec, row, &[], 1000, 1000).expect(rt, "not opened");
    let Attended { talk, taken } = left.attended;
    assert!(rt; talk == Talk::Ended && taken == 1000, "{taken} taken");
    let written = repeated(rt, alloc, &bytes_of(rt, alloc, row, "out"), 1000);
    assert!(rt; left.written == written && left.count == 1000);
}

#[test]
fn whole_connections(rt: HostRuntime) {
    let alloc = rt.alloc();
    each_row_is_served(&rt, alloc);
    a_failed_call_of_the_disk_ends_the_connection(&rt, alloc);
    refused_bodies_are_read_past(&rt, alloc);
    one_read_brings_long_runs(&rt, alloc);
    memory_is_claimed(&rt, alloc);
    a_thousand_requests_are_answered(&rt, alloc);
}
