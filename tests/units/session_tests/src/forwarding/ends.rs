//! How sessions end, as the rows spell it.
use event_form::Why;
use forward_core::Sent;
use std::alloc::Global;
use std::process::Abort;

// Why a peer's bytes break its protocol. `other`: a reason that no row has.
fn why_name(why: Why) -> &'static str {
    match why {
        Why::Digits => "Digits",
        Why::Reply => "Reply",
        Why::Kind => "Kind",
        Why::BadHead => "BadHead",
        _ => "other",
    }
}

/// The end of a session as text: `Drained`, `Refused { unit: 1, code: 500 }`.
pub(crate) fn end_text(rt: &impl Abort, alloc: Global, sent: Sent) -> String {
    let text = match sent {
        Sent::Drained => String::from_str(alloc, "Drained"),
        Sent::Refused { unit, code } => {
            format!(in alloc; "Refused {{ unit: {unit}, code: {code} }}")
        }
        Sent::PeerClosed => String::from_str(alloc, "PeerClosed"),
        Sent::PeerFault { at, why } => {
            let why = why_name(why);
            format!(in alloc; "PeerFault {{ at: {at}, why: {why} }}")
        }
        Sent::Unconfirmed { asked } => format!(in alloc; "Unconfirmed {{ asked: {asked} }}"),
        Sent::TooMuch { at } => format!(in alloc; "TooMuch {{ at: {at} }}"),
        Sent::ReadFault => String::from_str(alloc, "ReadFault"),
        Sent::WriteFault => String::from_str(alloc, "WriteFault"),
        Sent::DiskFault => String::from_str(alloc, "DiskFault"),
        Sent::NotSpool { at } => format!(in alloc; "NotSpool {{ at: {at} }}"),
        Sent::Worn { ordinal } => format!(in alloc; "Worn {{ ordinal: {ordinal} }}"),
        Sent::NoMemory => String::from_str(alloc, "NoMemory"),
    };
    text.expect(rt, "memory")
}
