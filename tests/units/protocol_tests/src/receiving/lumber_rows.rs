//! Connections of Lumberjack, and what they store and acknowledge.

/// A stream, the acts for its frames, the texts of its events, and the acknowledgments.
pub type Row = (&'static [u8], &'static str, &'static [u8], &'static [u8]);

/// Small connections: windows, cut ones, frames outside a window, pairs, and unfinished ones.
pub const ROWS: &[Row] = &[
    (b"", "", b"", b""),
    // A window of two frames is one batch.
    (
        b"2W\0\0\0\x022J\0\0\0\x01\0\0\0\x07{\"a\":1}2J\0\0\0\x02\0\0\0\x02{}",
        "njJ",
        b"[{\"a\":1}][{}]",
        b"2A\0\0\0\x02",
    ),
    // A new window cuts the old one: what is staged is stored first.
    (
        b"2W\0\0\0\x032J\0\0\0\x01\0\0\0\x02{}2J\0\0\0\x02\0\0\0\x02{}2W\0\0\0\x012J\0\0\0\x01\0\0\0\x02[]",
        "njjcJ",
        b"[{}][{}][[]]",
        b"2A\0\0\0\x022A\0\0\0\x01",
    ),
    // Where nothing is staged, the new window only takes the old one's place.
    (
        b"2W\0\0\0\x022W\0\0\0\x012J\0\0\0\x05\0\0\0\0",
        "nnJ",
        b"[]",
        b"2A\0\0\0\x05",
    ),
    (
        b"2W\0\0\0\x012W\0\0\0\x022J\0\0\0\x01\0\0\0\0",
        "nnj",
        b"[]",
        b"",
    ),
    // A window of zero has no effect, outside a window and in one.
    (
        b"2W\0\0\0\x002J\0\0\0\x09\0\0\0\x02{}",
        "nJ",
        b"[{}]",
        b"2A\0\0\0\x09",
    ),
    (
        b"2W\0\0\0\x022J\0\0\0\x01\0\0\0\0\x32W\0\0\0\x002J\0\0\0\x02\0\0\0\0",
        "njnJ",
        b"[][]",
        b"2A\0\0\0\x02",
    ),
    // A frame outside a window is a window of one, before the first one and after a complete
    // one.
    (b"2J\0\0\0\x07\0\0\0\x01x", "J", b"[x]", b"2A\0\0\0\x07"),
    (
        b"2W\0\0\0\x012J\0\0\0\x01\0\0\0\x01x2J\0\0\0\x02\0\0\0\x01y2J\0\0\0\x03\0\0\0\x01z",
        "nJJJ",
        b"[x][y][z]",
        b"2A\0\0\0\x012A\0\0\0\x022A\0\0\0\x03",
    ),
    // Pairs stay as they stand, doubled keys too, or none.
    (
        b"2D\0\0\0\x01\0\0\0\x02\0\0\0\x01a\0\0\0\x01x\0\0\0\x01a\0\0\0\x01y",
        "D",
        b"[\0\0\0\x01a\0\0\0\x01x\0\0\0\x01a\0\0\0\x01y]",
        b"2A\0\0\0\x01",
    ),
    (b"2D\0\0\0\x01\0\0\0\0", "D", b"[]", b"2A\0\0\0\x01"),
    (
        b"2W\0\0\0\x022D\0\0\0\x01\0\0\0\x002J\0\0\0\x02\0\0\0\0",
        "ndJ",
        b"[][]",
        b"2A\0\0\0\x02",
    ),
    // A fault after a staged event: the caller stores what is staged.
    (
        b"2W\0\0\0\x022J\0\0\0\x01\0\0\0\x02{}2C",
        "nj",
        b"[{}]",
        b"",
    ),
    // Sequence numbers aren't checked; the last one counts, not the greatest.
    (
        b"2W\0\0\0\x032J\xff\xff\xff\xff\0\0\0\x002J\0\0\0\x07\0\0\0\x002J\0\0\0\x07\0\0\0\0",
        "njjJ",
        b"[][][]",
        b"2A\0\0\0\x07",
    ),
    // A window that ends in the middle.
    (b"2W\0\0\0\x022J\0\0\0\x01\0\0\0\0\x32J\0", "nj", b"[]", b""),
];

/// A window of so many frames, each with a payload of a length: how many, the length, and the frames that are acknowledged.
pub const LARGE: &[(u32, usize, &[u32])] = &[
    (2048, 100, &[256, 512, 768, 1024, 1280, 1536, 1792, 2048]),
    (256, 0, &[256]),
    (257, 0, &[256, 257]),
    (300, 1024, &[256, 300]),
    (300, 1028, &[256, 300]),
    (300, 1029, &[255, 300]),
    (5, 131_072, &[2, 4, 5]),
    (5, 131_071, &[3, 5]),
];
