//! The bodies of the collector's replies.
use event_form::Blob;
use hec_body::ack_text;
use hec_session::{HecCode, HecSay, say_body, success_body};
use std::alloc::{AllocError, Global};
use std::process::Abort;

/// Codes with a number or without one, and the body.
const SAYS: [(HecCode, Option<u32>, &str); 9] = [
    (
        HecCode::EventRequired,
        Some(1),
        r#"{"text":"Event field is required","code":12,"invalid-event-number":1}"#,
    ),
    (
        HecCode::InvalidFormat,
        Some(10_000),
        r#"{"text":"Invalid data format","code":6,"invalid-event-number":10000}"#,
    ),
    (
        HecCode::InvalidFormat,
        None,
        r#"{"text":"Invalid data format","code":6}"#,
    ),
    (
        HecCode::ServerBusy,
        None,
        r#"{"text":"Server is busy","code":9}"#,
    ),
    (
        HecCode::ServerError,
        None,
        r#"{"text":"Internal server error","code":8}"#,
    ),
    (
        HecCode::QueryAuthorization,
        None,
        r#"{"text":"Query string authorization is not enabled","code":16}"#,
    ),
    (
        HecCode::Healthy,
        None,
        r#"{"text":"HEC is healthy","code":17}"#,
    ),
    (
        HecCode::NotFound,
        None,
        r#"{"text":"Not found","code":404}"#,
    ),
    (
        HecCode::MethodNotAllowed,
        None,
        r#"{"text":"Method not allowed","code":405}"#,
    ),
];

// The rows. A test's proof sees none of them this way, so that it stays short.
fn says() -> &'static [(HecCode, Option<u32>, &'static str)] {
    &SAYS
}

fn is(rt: &impl Abort, body: Result<Blob, AllocError>, want: &str) -> bool {
    body.expect(rt, "memory").bytes() == want.as_bytes()
}

/// A success tells the id, if one was issued, and an ack of each id that is asked for whether it is known.
pub fn answers(rt: &impl Abort, alloc: Global) {
    let success = r#"{"text":"Success","code":0}"#;
    assert!(rt; is(rt, success_body(alloc, None), success));
    let issued = r#"{"text":"Success","code":0,"ackId":4294967296}"#;
    assert!(rt; is(rt, success_body(alloc, Some(4_294_967_296)), issued));
    assert!(rt; is(rt, ack_text(alloc, &[], &[]), r#"{"acks":{}}"#));
    let known = r#"{"acks":{"4294967296":true}}"#;
    assert!(rt; is(rt, ack_text(alloc, &[4294967296], &[true]), known));
    let both = r#"{"acks":{"18446744073709551615":false,"0":true}}"#;
    assert!(rt;
        is(
            rt,
            ack_text(alloc, &[18446744073709551615, 0], &[false, true]),
            both
        )
    );
}

/// Each code has its text, and the number of an event if there is one.
pub fn faults(rt: &impl Abort, alloc: Global) {
    for (code, event, want) in says() {
        assert!(rt;
            is(rt, say_body(alloc, &HecSay::of(*code, *event)), want),
            "{want}"
        );
    }
}
