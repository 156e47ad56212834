//! Streams of RELP in pieces of each size, and a window that is full.
ghost use Rattle.std.specs.Prelude.{◌≡◌, length};

use super::relp_read::{Read, by_reader, by_window};
use super::relp_rows::{ROWS, Row};
use relp_frame::{RelpWindow, write_parts};
use std::alloc::Global;
use std::process::Abort;

/// Whether this was read of a row's stream.
fn is(read: &Read, row: &Row) -> bool {
    let (frames, rest_at, fault) = read;
    frames.as_slice() == row.frames && *rest_at == row.rest_at && *fault == row.fault
}

/// The rows in pieces of each size, by the window and by the reader.
pub(crate) fn streams(rt: &impl Abort, alloc: Global) {
    for row in ROWS {
        assert!(rt; row.text.len() <= 300);
        for size in 1..301 {
            let (read, held) = by_window(rt, alloc, row.text, size);
            assert!(rt;
                is(&read, row) && held == row.held,
                "{:?} in pieces of {size}",
                row.text
            );
            assert!(rt;
                is(&by_reader(rt, alloc, row.text, size), row),
                "{:?} in pieces of {size}",
                row.text
            );
        }
    }
}

/// The length of the next frame's body.
fn next_body(window: &mut RelpWindow) -> Option<usize>
    ensures at { window.new.at ≡ window.old.at }
    ensures rest { window.new.rest ≡ window.old.rest }
{
    let frame = window.next()?;
    Some(frame.body.len())
}

/// Two frames of the longest body, of which a window holds the first and 47 bytes of the second.
fn in_window(rt: &impl Abort, alloc: Global, text: &[u8])
    requires { length text.now ≡ 262178 }
{
    let mut window = RelpWindow::new(alloc).expect(rt, "memory");
    assert!(rt; window.feed(text) == Ok(131_136));
    assert!(rt; window.held() == 131_136);
    let rest = &text[131_136..];
    assert!(rt; window.feed(rest) == Ok(0));
    assert!(rt; next_body(&mut window) == Some(131_072));
    assert!(rt; window.held() == 47);
    assert!(rt; window.feed(rest) == Ok(131_042));
    assert!(rt; next_body(&mut window) == Some(131_072));
    assert!(rt; next_body(&mut window).is_none());
    assert!(rt; window.held() == 0 && window.rest_at().is_none());
}

/// The same frames in large pieces, by the reader.
fn in_reader(rt: &impl Abort, alloc: Global, text: &[u8])
    requires { length text.now ≡ 262178 }
{
    for count in 1..17 {
        let (frames, rest_at, fault) = by_reader(rt, alloc, text, count * 8192);
        assert!(rt; frames.as_slice() == text && rest_at.is_none() && fault.is_none());
    }
}

/// Two frames of the longest body.
pub(crate) fn longest_bodies(rt: &impl Abort, alloc: Global) {
    let body = vec![in alloc; b'x'; 131_072].expect(rt, "memory");
    let mut text = Vec::new(alloc);
    for _ in 0..2 {
        write_parts(1, b"syslog", &body, &mut text).expect(rt, "memory");
    }
    let text = text.as_slice();
    assert!(rt; text.starts_with(b"1 syslog 131072 xxx"));
    assert!(rt; text.len() == 262_178);
    in_window(rt, alloc, text);
    in_reader(rt, alloc, text);
}
