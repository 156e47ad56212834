//! What some connections store and acknowledge.
ghost use Rattle.std.specs.Prelude.{◌≤◌, ◌^◌, length};

use super::lumber_rows::{LARGE, ROWS};
use crate::parts::add;
use event_form::{FeedFault, Origin};
use lumber_frame::{LumberReader, Side, window_frame, write_json};
use lumber_session::{LumberAct, LumberCore, ack_for};
use std::alloc::Global;
use std::process::Abort;

/// What the frames of a connection asked for: a letter for each (`n` nothing, `d` and `j` an event
/// that is staged, `D` and `J` one with which a batch is stored, `c` a batch that is stored first),
/// the texts of the events, each in brackets, and the acknowledgments.
type Heard = (Vec<u8>, Vec<u8>, Vec<u8>);

/// The letter for a staged event.
fn letter(origin: Origin, commit: bool) -> u8 {
    match (origin, commit) {
        (Origin::LumberData, false) => b'd',
        (Origin::LumberData, true) => b'D',
        (Origin::LumberJson, false) => b'j',
        (Origin::LumberJson, true) => b'J',
        _ => b'?',
    }
}

/// Steps a core over the frames of a stream, and does what it tells.
fn listen(rt: &impl Abort, alloc: Global, stream: &[u8]) -> Heard
    requires { length stream.now ≤ 2 ^ 30 }
{
    let mut reader = LumberReader::new(alloc, Side::Receiver);
    let mut core = LumberCore::new();
    let mut acts = Vec::new(alloc);
    let mut texts = Vec::new(alloc);
    let mut acks = Vec::new(alloc);
    let mut last = 0;
    if let Err(FeedFault::NoMemory) = reader.feed(stream) {
        panic!(rt; "memory");
    }
    while let Some(frame) = reader.take() {
        let (act, commits) = match core.step(frame) {
            LumberAct::Nothing => (b'n', false),
            LumberAct::Stage { event, seq, commit } => {
                add(rt, &mut texts, &[b"[", event.text.bytes(), b"]"]);
                last = seq;
                (letter(event.origin, commit), commit)
            }
            LumberAct::CommitFirst => (b'c', true),
        };
        acts.push(act).expect(rt, "memory");
        if commits {
            add(rt, &mut acks, &[&ack_for(last)]);
            core.committed();
        }
    }
    (acts, texts, acks)
}

/// Small connections.
pub(crate) fn connections(rt: &impl Abort, alloc: Global) {
    for (stream, acts, texts, acks) in ROWS {
        assert!(rt; stream.len() <= 100);
        let (letters, stored, answers) = listen(rt, alloc, stream);
        assert!(rt; letters.as_slice() == acts.as_bytes(), "{stream:?}");
        assert!(rt;
            stored.as_slice() == *texts && answers.as_slice() == *acks,
            "{stream:?}"
        );
    }
}

/// A window and its frames, numbered from 1, each with a payload of that length.
fn window(rt: &impl Abort, alloc: Global, frames: u32, len: usize) -> Vec<u8>
    requires { len ≤ 131072 }
{
    let mut stream = Vec::from_slice(alloc, &window_frame(frames)).expect(rt, "memory");
    let payload = vec![in alloc; b'x'; len].expect(rt, "memory");
    for number in 0..frames {
        write_json(number + 1, &payload, &mut stream).expect(rt, "memory");
    }
    stream
}

/// The acknowledgments of these frames.
fn acks_for(rt: &impl Abort, alloc: Global, seqs: &[u32]) -> Vec<u8> {
    let mut acks = Vec::new(alloc);
    for seq in seqs {
        acks.extend_from_slice(&ack_for(*seq)).expect(rt, "memory");
    }
    acks
}

/// Windows that are more than one batch, by their frames and by their bytes.
pub(crate) fn large_windows(rt: &impl Abort, alloc: Global) {
    for (frames, len, last) in LARGE {
        assert!(rt; *len <= 131_072);
        let stream = window(rt, alloc, *frames, *len);
        assert!(rt; stream.len() <= 1_000_000);
        let (_, _, acks) = listen(rt, alloc, &stream);
        assert!(rt;
            acks == acks_for(rt, alloc, last),
            "{frames} frames of {len} bytes"
        );
    }
}
