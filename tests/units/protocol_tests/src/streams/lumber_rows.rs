//! Streams of Lumberjack, and what they are. The lengths and faults are counted by hand in the layout of
//! Elastic's protocol document.
use lumber_frame::{LumberWhy, Side};
use std::alloc::Global;
use std::process::Abort;

/// A side, a stream, how many bytes its whole frames take, and the fault's place and rule.
pub type Row = (Side, &'static [u8], usize, Option<(u64, LumberWhy)>);

/// Streams of each kind of frame, unfinished ones, and ones with each fault.
pub const ROWS: &[Row] = &[
    // Whole frames.
    (Side::Receiver, b"", 0, None),
    (
        Side::Receiver,
        b"2W\0\0\0\x022J\0\0\0\x01\0\0\0\x07{\"a\":1}2J\0\0\0\x02\0\0\0\x02{}",
        35,
        None,
    ),
    (Side::Receiver, b"2W\0\0\0\0", 6, None),
    (Side::Receiver, b"2W\0\x01\0\0", 6, None),
    (
        Side::Receiver,
        b"2D\0\0\0\x01\0\0\0\x02\0\0\0\x01a\0\0\0\x01x\0\0\0\x01a\0\0\0\x01y",
        30,
        None,
    ),
    (Side::Receiver, b"2D\xff\xff\xff\xff\0\0\0\0", 10, None),
    (
        Side::Receiver,
        b"2D\0\0\0\x01\0\0\0\x02\0\0\0\0\0\0\0\0\0\0\0\x01k\0\0\0\0",
        27,
        None,
    ),
    (
        Side::Receiver,
        b"2J\0\0\x01\0\0\0\0\x002W\0\0\0\x01",
        16,
        None,
    ),
    (Side::Sender, b"2A\0\0\0\x022A\xff\xff\xff\xff", 12, None),
    // An unfinished frame, within a field that may yet break a rule too.
    (Side::Receiver, b"2", 0, None),
    (Side::Receiver, b"2W\0\0\0\x022J\0", 6, None),
    (Side::Receiver, b"2W\xff\xff\xff", 0, None),
    (Side::Receiver, b"2D\0\0\0\x01\0\0\x04\0", 0, None),
    (Side::Receiver, b"2D\0\0\0\x01\0\0\x04", 0, None),
    (Side::Receiver, b"2J\0\0\0\x01\0\x02\0\0x", 0, None),
    (Side::Receiver, b"2J\0\0\0\x01\xff\xff\xff", 0, None),
    (Side::Sender, b"2A\0\0\0", 0, None),
    (
        Side::Receiver,
        b"2W\0\0\0\x012J\0\0\0\x01\0\0\0\x02{}2W\0\0\0",
        18,
        None,
    ),
    // The version.
    (Side::Receiver, b"1", 0, Some((0, LumberWhy::Version))),
    (Side::Receiver, b"1W", 0, Some((0, LumberWhy::Version))),
    (
        Side::Receiver,
        b"2W\0\0\0\x021W\0\0\0\x02",
        6,
        Some((6, LumberWhy::Version)),
    ),
    (
        Side::Sender,
        b"2A\0\0\0\x01x",
        6,
        Some((6, LumberWhy::Version)),
    ),
    // The type.
    (
        Side::Receiver,
        b"2W\0\0\0\x022J\0\0\0\x01\0\0\0\x02{}2C",
        18,
        Some((19, LumberWhy::Compressed)),
    ),
    (
        Side::Receiver,
        b"2A",
        0,
        Some((1, LumberWhy::AckFromWriter)),
    ),
    (
        Side::Receiver,
        b"2A\0\0\0\x01",
        0,
        Some((1, LumberWhy::AckFromWriter)),
    ),
    (Side::Receiver, b"2X", 0, Some((1, LumberWhy::Kind))),
    (Side::Receiver, b"2j", 0, Some((1, LumberWhy::Kind))),
    (Side::Sender, b"2C", 0, Some((1, LumberWhy::Compressed))),
    (
        Side::Sender,
        b"2A\0\0\0\x012W\0\0\0\x01",
        6,
        Some((7, LumberWhy::Kind)),
    ),
    (Side::Sender, b"2D", 0, Some((1, LumberWhy::Kind))),
    (Side::Sender, b"2J", 0, Some((1, LumberWhy::Kind))),
    // The window size, and the pair count.
    (
        Side::Receiver,
        b"2W\0\x01\0\x01",
        0,
        Some((2, LumberWhy::TooMany)),
    ),
    (
        Side::Receiver,
        b"2W\xff\xff\xff\xff2W",
        0,
        Some((2, LumberWhy::TooMany)),
    ),
    (
        Side::Receiver,
        b"2D\0\0\0\x01\0\0\x04\x01",
        0,
        Some((6, LumberWhy::TooMany)),
    ),
    (
        Side::Receiver,
        b"2D\0\0\0\x01\0\0\x04\x01\0\0",
        0,
        Some((6, LumberWhy::TooMany)),
    ),
    // The payload length.
    (
        Side::Receiver,
        b"2J\0\0\0\x01\0\x02\0\x01",
        0,
        Some((6, LumberWhy::TooLong)),
    ),
    (
        Side::Receiver,
        b"2J\0\0\0\x01\0\x02\0\x01{",
        0,
        Some((6, LumberWhy::TooLong)),
    ),
    (
        Side::Receiver,
        b"2W\0\0\0\x022J\0\0\0\x01\xff\xff\xff\xff",
        6,
        Some((12, LumberWhy::TooLong)),
    ),
    // A key length: 8 and 131,064 are the most, and behind a pair of ten bytes 131,054.
    (
        Side::Receiver,
        b"2D\0\0\0\x01\0\0\0\x01\0\x01\xff\xf8",
        0,
        None,
    ),
    (
        Side::Receiver,
        b"2D\0\0\0\x01\0\0\0\x01\0\x01\xff\xf9",
        0,
        Some((10, LumberWhy::TooLong)),
    ),
    (
        Side::Receiver,
        b"2D\0\0\0\x01\0\0\0\x01\0\x02\0\0",
        0,
        Some((10, LumberWhy::TooLong)),
    ),
    (
        Side::Receiver,
        b"2D\0\0\0\x01\0\0\0\x02\0\0\0\x01a\0\0\0\x01x\0\x01\xff\xee",
        0,
        None,
    ),
    (
        Side::Receiver,
        b"2D\0\0\0\x01\0\0\0\x02\0\0\0\x01a\0\0\0\x01x\0\x01\xff\xef",
        0,
        Some((20, LumberWhy::TooLong)),
    ),
    // A value length: 8, the key's one byte and 131,063 are the most.
    (
        Side::Receiver,
        b"2D\0\0\0\x01\0\0\0\x01\0\0\0\x01k\0\x01\xff\xf7",
        0,
        None,
    ),
    (
        Side::Receiver,
        b"2D\0\0\0\x01\0\0\0\x01\0\0\0\x01k\0\x01\xff\xf8",
        0,
        Some((15, LumberWhy::TooLong)),
    ),
    (
        Side::Receiver,
        b"2D\0\0\0\x01\0\0\0\x02\0\0\0\x01a\0\0\0\x01x\0\0\0\x01a\0\x01\xff\xed",
        0,
        None,
    ),
    (
        Side::Receiver,
        b"2D\0\0\0\x01\0\0\0\x02\0\0\0\x01a\0\0\0\x01x\0\0\0\x01a\0\x01\xff\xee",
        0,
        Some((25, LumberWhy::TooLong)),
    ),
    (
        Side::Receiver,
        b"2D\0\0\0\x01\0\0\0\x01\0\0\0\0\xff\xff\xff\xff",
        0,
        Some((14, LumberWhy::TooLong)),
    ),
];

/// Parts of a stream: some bytes, and the byte that follows them until there are so many bytes.
const LONGEST: &[(&[u8], u8, usize)] = &[
    (b"2J\0\0\0\x01\0\x02\0\0", b'x', 131_082),
    (b"2D\0\0\0\x02\0\0\0\x01\0\x01\xff\xf8", b'k', 262_160),
    (b"\0\0\0\0", 0, 262_164),
    (
        b"2D\0\0\0\x03\0\0\0\x01\0\0\0\x01k\0\x01\xff\xf7",
        b'v',
        393_246,
    ),
    (b"2D\0\0\0\x04\0\0\x04\0", 0, 401_448),
];

/// Frames with the longest payload, the longest key, the longest value, and the most pairs.
pub fn longest(rt: &impl Abort, alloc: Global) -> Vec<u8> {
    let mut text = Vec::new(alloc);
    for (head, fill, length) in LONGEST {
        text.extend_from_slice(head).expect(rt, "memory");
        text.resize(*length, *fill).expect(rt, "memory");
    }
    text
}
