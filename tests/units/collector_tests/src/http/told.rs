//! How ends of streams are told.
use crate::spelling::add;
use http_edge::{HttpFault, HttpWhy};
use std::alloc::Global;
use std::process::Abort;

// The word for a rule.
fn word(why: HttpWhy) -> &'static str {
    match why {
        HttpWhy::BadHead => "head",
        HttpWhy::BadLength => "length",
        HttpWhy::TooLong => "long",
        HttpWhy::BadChunk => "chunk",
    }
}

/// Tells the offset of the rest after `#`, and a fault's place and rule after `!`.
pub fn tell_end(
    rt: &impl Abort,
    alloc: Global,
    rest_at: Option<u64>,
    fault: Option<HttpFault>,
    told: &mut Vec<u8>,
) {
    if let Some(at) = rest_at {
        let rest = format!(in alloc; "#{at}").expect(rt, "memory");
        add(rt, told, rest.as_bytes());
    }
    if let Some(HttpFault { at, why }) = fault {
        let fault = format!(in alloc; "!{at} {}", word(why)).expect(rt, "memory");
        add(rt, told, fault.as_bytes());
    }
}
