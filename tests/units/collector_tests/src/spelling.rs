//! Bytes as the rows of a table spell them.
use std::alloc::Global;
use std::fmt::Debug;
use std::process::Abort;

/// A value as text.
pub fn shown(rt: &impl Abort, alloc: Global, value: &impl Debug) -> String {
    format!(in alloc; "{value:?}").expect(rt, "memory")
}

/// Adds bytes.
pub fn add(rt: &impl Abort, bytes: &mut Vec<u8>, more: &[u8]) {
    bytes.extend_from_slice(more).expect(rt, "memory");
}

// The byte that two digits stand for, and the bytes after them.
fn from_digits(part: &[u8]) -> Option<(u8, &[u8])> {
    match part {
        [high, low, rest @ ..] => {
            let high = char::from(*high).to_digit(16)?;
            let low = char::from(*low).to_digit(16)?;
            Some(((high * 16 + low) as u8, rest))
        }
        _ => None,
    }
}

// The byte that the part after a backslash begins with, and the bytes after it.
fn escaped(part: &[u8]) -> Option<(u8, &[u8])> {
    let (first, rest) = part.split_first()?;
    match *first {
        b'r' => Some((b'\r', rest)),
        b'n' => Some((b'\n', rest)),
        b't' => Some((b'\t', rest)),
        b'x' => from_digits(rest),
        b'u' => Some((b'\\', part)),
        _ => None,
    }
}

// Adds the bytes of a part that isn't repeated.
fn spell_once(rt: &impl Abort, text: &str, bytes: &mut Vec<u8>) {
    for (number, part) in text.split('\\').enumerate() {
        if number == 0 {
            add(rt, bytes, part.as_bytes());
        } else {
            let (byte, rest) = escaped(part.as_bytes()).expect(rt, "an escape");
            add(rt, bytes, &[byte]);
            add(rt, bytes, rest);
        }
    }
}

/// Adds the bytes that a text spells: `\r`, `\n`, `\t`, and `\x` with two digits for one byte, `\u` for itself, as JSON has
/// it, and `~3*ab~` for `ababab`.
pub fn spell(rt: &impl Abort, alloc: Global, text: &str, bytes: &mut Vec<u8>) {
    for (number, part) in text.split('~').enumerate() {
        if number % 2 == 0 {
            spell_once(rt, part, bytes);
        } else {
            let (times, part) = part.split_once('*').expect(rt, "how often");
            let times = times.parse::<usize>().expect(rt, "a number");
            let mut unit = Vec::new(alloc);
            spell_once(rt, part, &mut unit);
            add(rt, bytes, &unit.repeat(alloc, times).expect(rt, "memory"));
        }
    }
}
