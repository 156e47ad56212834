//! Streams of Lumberjack in pieces of each size, and a window that is full.
ghost use Rattle.std.specs.Prelude.{◌≤◌, ◌^◌, length};

use super::lumber_read::{Fed, Found, Read, by_reader, by_window};
use super::lumber_rows::{ROWS, longest};
use event_form::FeedFault;
use lumber_frame::{
    LumberFault, LumberFrame, LumberReader, LumberWhy, Side, ack_frame, window_frame, write_json,
};
use std::alloc::Global;
use std::process::Abort;

/// Where the rest of a row begins, and how many bytes of it a window holds.
fn rest_of(length: usize, whole: usize, fault: Option<Found>) -> (Option<u64>, u64) {
    let whole = whole as u64;
    match fault {
        Some((at, _)) => (Some(whole), at.saturating_sub(whole)),
        None if whole == length as u64 => (None, 0),
        None => (Some(whole), (length as u64).saturating_sub(whole)),
    }
}

/// What a reader and a window have to read of a row: the bytes of its whole frames, the offset of the rest, and the fault.
type Wanted<'a> = (&'a [u8], Option<u64>, Option<Found>);

/// Whether that was read.
fn is(read: &Read, wanted: Wanted<'_>) -> bool {
    read.0.as_slice() == wanted.0 && read.1 == wanted.1 && read.2 == wanted.2
}

/// The rows in pieces of each size, by the reader, and by the window where a receiver reads.
pub(crate) fn streams(rt: &impl Abort, alloc: Global) {
    for (side, text, whole, fault) in ROWS {
        let frames = text.get(..*whole).expect(rt, "as many bytes");
        assert!(rt; text.len() <= 100);
        let (rest_at, held) = rest_of(text.len(), *whole, *fault);
        let wanted = (frames, rest_at, *fault);
        for size in 1..102 {
            assert!(rt;
                is(&by_reader(rt, alloc, *side, text, size), wanted),
                "{text:?} in pieces of {size}"
            );
            if *side == Side::Receiver {
                let (read, holds) = by_window(rt, alloc, text, size);
                assert!(rt;
                    is(&read, wanted) && holds as u64 == held,
                    "{text:?} in pieces of {size}"
                );
            }
        }
    }
}

/// The longest frames in large pieces, some larger than the window.
pub(crate) fn limits(rt: &impl Abort, alloc: Global) {
    let text = longest(rt, alloc);
    assert!(rt; text.len() <= 500_000);
    for count in 1..21 {
        let wanted = (text.as_slice(), None, None);
        assert!(rt;
            is(
                &by_reader(rt, alloc, Side::Receiver, &text, count * 8192),
                wanted
            )
        );
        let (read, held) = by_window(rt, alloc, &text, count * 8192);
        assert!(rt; is(&read, wanted) && held == 0);
    }
}

/// What is taken of the bytes that are left, what is held then, and the frame that comes next.
type Step = (usize, usize, Option<(u32, usize)>);

const LONG_STEPS: &[Step] = &[
    (131_140, 131_140, Some((1, 131_072))),
    (131_024, 131_082, Some((2, 131_072))),
    (0, 0, None),
    (0, 0, None),
];

const SHORT_STEPS: &[Step] = &[
    (131_140, 131_140, Some((0, 0))),
    (6, 131_140, Some((1, 0))),
    (6, 131_140, Some((2, 0))),
    (6, 131_140, Some((3, 0))),
];

/// Feeds a window what is left of the text before each of its frames.
fn steps(rt: &impl Abort, alloc: Global, text: &[u8], steps: &[Step]) {
    let mut fed = Fed::new(rt, alloc);
    let mut rest = text;
    for (taken, held, frame) in steps {
        assert!(rt; fed.feed(rest) == Ok(*taken), "{taken} taken");
        assert!(rt; fed.window.held() == *held, "{taken} taken, {held} held");
        rest = rest.get(*taken..).unwrap_or(&[]);
        let more = if *held == 131_140 { rest } else { &[] };
        assert!(rt; fed.feed(more) == Ok(0));
        assert!(rt; fed.next() == *frame, "the frame after {taken} taken");
    }
}

/// Two JSON frames of the longest payload, and the shortest frames that fill a window.
pub(crate) fn full(rt: &impl Abort, alloc: Global) {
    let payload = vec![in alloc; b'x'; 131_072].expect(rt, "memory");
    let mut long = Vec::new(alloc);
    for seq in 1..3 {
        assert!(rt; payload.len() < 1 << 20);
        write_json(seq, &payload, &mut long).expect(rt, "memory");
    }
    steps(rt, alloc, &long, LONG_STEPS);
    let mut short = Vec::new(alloc);
    for size in 0..22_000 {
        short
            .extend_from_slice(&window_frame(size))
            .expect(rt, "memory");
    }
    steps(rt, alloc, &short, SHORT_STEPS);
}

/// Two pairs with the same key.
const PAIRS: &[u8] = b"\0\0\0\x01a\0\0\0\x01x\0\0\0\x01a\0\0\0\x01y";

/// Whether this is a window of 256 frames.
fn is_window(frame: &Option<LumberFrame>) -> bool {
    matches!(frame, Some(LumberFrame::Window { size: 256 }))
}

/// Whether this is a frame with these pairs and the sequence number 1.
fn is_pairs(frame: &Option<LumberFrame>) -> bool {
    match frame {
        Some(LumberFrame::Pairs { seq, text }) => *seq == 1 && text.bytes() == PAIRS,
        _ => false,
    }
}

/// The fault by a payload that is longer than a reader takes, and the frames before it.
fn too_long(rt: &impl Abort, alloc: Global, text: &[u8])
    requires { length text.now ≤ 2 ^ 20 }
{
    let mut reader = LumberReader::new(alloc, Side::Receiver);
    let fault = LumberFault {
        at: 42,
        why: LumberWhy::TooLong,
    };
    assert!(rt; reader.feed(text) == Err(FeedFault::Fault(fault)));
    assert!(rt; is_window(&reader.take()));
    assert!(rt; is_pairs(&reader.take()));
    assert!(rt; reader.take().is_none());
}

/// A payload that is longer than a reader takes, and what taken frames tell.
pub(crate) fn frames(rt: &impl Abort, alloc: Global) {
    let mut text = Vec::from_slice(alloc, b"2W\0\0\x01\0\x32D\0\0\0\x01\0\0\0\x02").expect(
        rt, "memory",
    );
    text.extend_from_slice(PAIRS).expect(rt, "memory");
    let payload = vec![in alloc; b'x'; 131_073].expect(rt, "memory");
    write_json(9, &payload, &mut text).expect(rt, "memory");
    assert!(rt; text.len() == 6 + 30 + 10 + 131_073);
    assert!(rt; text[36..].starts_with(b"2J\0\0\0\x09\0\x02\0\x01xxx"));
    too_long(rt, alloc, &text);
    assert!(rt; window_frame(65_536) == *b"2W\0\x01\0\0");
    assert!(rt; ack_frame(258) == *b"2A\0\0\x01\x02");
}
