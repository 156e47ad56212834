//! A connection of the collector: requests of events.
use std::alloc::{AllocError, Global};

/// How many events a request has, and how many bytes each.
pub const GROUP: u32 = 100;

pub const DATA: usize = 100;

/// The head of a request, as a log driver writes it.
const HEAD: &[u8] = b"POST /services/collector/event HTTP/1.1\r\nHost: collector.example.com:8088\r\nUser-Agent: Go-http-client/1.1\r\nAuthorization: Splunk 11111111-2222-3333-4444-555555555555\r\nContent-Type: application/json\r\nContent-Length: 10000\r\n\r\n";

/// The token of its Authorization.
pub const TOKEN: u128 = 0x1111_1111_2222_3333_4444_5555_5555_5555;

/// An event of 100 bytes: its first member is the event, as log drivers write it.
const FIRST: &[u8] =
    br#"{"event":"<13>Nov 27 02:00:00 host7 app[4711]: connection closed","time":1795744800,"host":"host77"}"#;

/// The same with the event last.
const LAST: &[u8] =
    br#"{"time":1795744800,"host":"host77","event":"<13>Nov 27 02:00:00 host7 app[4711]: connection closed"}"#;

/// Where the event stands in its object.
#[derive(Clone, Copy, Debug)]
pub enum Place {
    First,
    Last,
}

/// A body of events.
pub fn body(alloc: Global, place: Place) -> Result<Vec<u8>, AllocError> {
    let event = match place {
        Place::First => FIRST,
        Place::Last => LAST,
    };
    let mut body = Vec::with_capacity(alloc, 10_000)?;
    for _ in 0..GROUP {
        body.extend_from_slice(event)?;
    }
    Ok(body)
}

/// So many requests with this body. Memory is sought once, for all of them.
pub fn requests(alloc: Global, body: &[u8], requests: u32) -> Result<Vec<u8>, AllocError> {
    let mut bytes = Vec::with_capacity(alloc, 10_300 * requests as usize)?;
    for _ in 0..requests {
        bytes.extend_from_slice(HEAD)?;
        bytes.extend_from_slice(body)?;
    }
    Ok(bytes)
}
