//! How connections end, as the rows spell it.
use event_form::{Talk, Why};
use std::alloc::Global;
use std::process::Abort;

fn why_name(why: Why) -> &'static str {
    match why {
        Why::Digits => "Digits",
        Why::Space => "Space",
        Why::Command => "Command",
        Why::TooLong => "TooLong",
        Why::Trailer => "Trailer",
        Why::Version => "Version",
        Why::Kind => "Kind",
        Why::Compressed => "Compressed",
        Why::AckFromWriter => "AckFromWriter",
        Why::TooMany => "TooMany",
        Why::BadHead => "BadHead",
        Why::BadLength => "BadLength",
        Why::BadChunk => "BadChunk",
        Why::Reply => "Reply",
    }
}

/// The end of a connection as text: `Closed`, `Truncated { at: 18 }`.
pub(crate) fn end_text(rt: &impl Abort, alloc: Global, talk: Talk) -> String {
    let text = match talk {
        Talk::Ended => String::from_str(alloc, "Ended"),
        Talk::Closed => String::from_str(alloc, "Closed"),
        Talk::Fault { at, why } => {
            let why = why_name(why);
            format!(in alloc; "Fault {{ at: {at}, why: {why} }}")
        }
        Talk::Truncated { at } => format!(in alloc; "Truncated {{ at: {at} }}"),
        Talk::Full { need, room } => format!(in alloc; "Full {{ need: {need}, room: {room} }}"),
        Talk::TooLarge { need, most } => {
            format!(in alloc; "TooLarge {{ need: {need}, most: {most} }}")
        }
        Talk::Busy { held } => format!(in alloc; "Busy {{ held: {held} }}"),
        Talk::Spent { end } => format!(in alloc; "Spent {{ end: {end} }}"),
        Talk::NoMore { run } => format!(in alloc; "NoMore {{ run: {run} }}"),
        Talk::TooMuch { at } => format!(in alloc; "TooMuch {{ at: {at} }}"),
        Talk::ReadFault => String::from_str(alloc, "ReadFault"),
        Talk::WriteFault => String::from_str(alloc, "WriteFault"),
        Talk::DiskFault => String::from_str(alloc, "DiskFault"),
        Talk::NotSpool { at } => format!(in alloc; "NotSpool {{ at: {at} }}"),
        Talk::NoMemory => String::from_str(alloc, "NoMemory"),
    };
    text.expect(rt, "memory")
}
