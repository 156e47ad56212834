//! Bytes as the rows of a table spell them.
use std::process::Abort;

/// Adds bytes.
pub fn add(rt: &impl Abort, bytes: &mut Vec<u8>, more: &[u8]) {
    bytes.extend_from_slice(more).expect(rt, "memory");
}

// The byte that two digits stand for, and the bytes after them.
fn escaped(part: &[u8]) -> Option<(u8, &[u8])> {
    match part {
        [high, low, rest @ ..] => {
            let high = char::from(*high).to_digit(16)?;
            let low = char::from(*low).to_digit(16)?;
            Some(((high * 16 + low) as u8, rest))
        }
        _ => None,
    }
}

// Adds the bytes of a part that isn't repeated.
fn spell_once(rt: &impl Abort, text: &str, bytes: &mut Vec<u8>) {
    for (number, part) in text.split('%').enumerate() {
        if number == 0 {
            add(rt, bytes, part.as_bytes());
        } else {
            let (byte, rest) = escaped(part.as_bytes()).expect(rt, "two digits");
            add(rt, bytes, &[byte]);
            add(rt, bytes, rest);
        }
    }
}

/// Adds the bytes that a text spells: `%` and two digits stand for a byte, and `~3*ab~` for `ababab`.
pub fn spell(rt: &impl Abort, text: &str, bytes: &mut Vec<u8>) {
    for (number, part) in text.split('~').enumerate() {
        if number % 2 == 0 {
            spell_once(rt, part, bytes);
        } else {
            let (times, part) = part.split_once('*').expect(rt, "how often");
            for _ in 0..times.parse::<u32>().expect(rt, "a number") {
                spell_once(rt, part, bytes);
            }
        }
    }
}
