//! What bodies are cut into, and the ids that ack queries ask for.
use crate::spelling::{add, shown};
use event_form::Blob;
use hec_body::{AckFault, BodyFault, ack_ids, event_pieces, raw_lines};
use std::alloc::Global;
use std::process::Abort;

// A fault as text.
fn fault_text(rt: &impl Abort, alloc: Global, fault: BodyFault) -> String {
    let text = match fault {
        BodyFault::NoData => String::from_str(alloc, "NoData"),
        BodyFault::Format { event } => format!(in alloc; "Format {{ event: {event} }}"),
        BodyFault::NoEvent { event } => format!(in alloc; "NoEvent {{ event: {event} }}"),
        BodyFault::Blank { event } => format!(in alloc; "Blank {{ event: {event} }}"),
        BodyFault::TooMany => String::from_str(alloc, "TooMany"),
        BodyFault::NoMemory => String::from_str(alloc, "NoMemory"),
    };
    text.expect(rt, "memory")
}

// The texts, each in brackets, or the fault.
fn told(rt: &impl Abort, alloc: Global, cut: &Result<Vec<Blob>, BodyFault>) -> Vec<u8> {
    let pieces = match cut {
        Ok(pieces) => pieces,
        Err(fault) => return fault_text(rt, alloc, *fault).into_bytes(),
    };
    let mut text = Vec::new(alloc);
    for piece in pieces {
        add(rt, &mut text, b"[");
        add(rt, &mut text, piece.bytes());
        add(rt, &mut text, b"]");
    }
    text
}

/// The event objects of a body, each in brackets, or the fault.
pub fn events(rt: &impl Abort, alloc: Global, body: &[u8]) -> Vec<u8> {
    told(rt, alloc, &event_pieces(alloc, body))
}

/// The lines of a body, each in brackets, or the fault.
pub fn lines(rt: &impl Abort, alloc: Global, body: &[u8]) -> Vec<u8> {
    told(rt, alloc, &raw_lines(alloc, body))
}

/// The ids that a query asks for, or the fault.
pub fn ids(rt: &impl Abort, alloc: Global, body: &[u8]) -> Vec<u8> {
    match ack_ids(alloc, body) {
        Ok(ids) => shown(rt, alloc, &ids).into_bytes(),
        Err(AckFault::Format) => b"Format".to_vec(alloc).expect(rt, "memory"),
        Err(AckFault::NoMemory) => b"NoMemory".to_vec(alloc).expect(rt, "memory"),
    }
}
