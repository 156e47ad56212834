//! Words, numbers and bytes, as the scripts spell them.
use crate::faults::{Spelled, fault_text};
use std::alloc::Global;
use std::process::Abort;

/// The first word of a text, and what follows the space after it.
pub(crate) fn word(text: &str) -> (&str, &str) {
    text.split_once(' ').unwrap_or((text, ""))
}

/// The number that a word spells.
pub(crate) fn number(rt: &impl Abort, word: &str) -> u64 {
    word.parse::<u64>().expect(rt, "a number")
}

/// The numbers that words spell, with a space between them.
pub(crate) fn numbers(rt: &impl Abort, alloc: Global, words: &str) -> Vec<u64> {
    let mut all = Vec::new(alloc);
    for word in words.split(' ') {
        all.push(number(rt, word)).expect(rt, "memory");
    }
    all
}

/// Whether the words spell these numbers, with a space between them.
pub(crate) fn are(words: &str, numbers: &[u64]) -> bool {
    let mut left = words.split(' ');
    for number in numbers {
        let Some(word) = left.next() else {
            return false;
        };
        if word.parse::<u64>().ok() != Some(*number) {
            return false;
        }
    }
    left.next().is_none()
}

/// Whether an answer is told so: `done` or the fault.
pub(crate) fn is_told(
    rt: &impl Abort,
    alloc: Global,
    answer: &Result<(), impl Spelled>,
    want: &str,
) -> bool {
    match answer {
        Ok(()) => want == "done",
        Err(fault) => fault_text(rt, alloc, fault).as_str() == want,
    }
}

/// A copy of the bytes.
pub(crate) fn copied(rt: &impl Abort, alloc: Global, bytes: &[u8]) -> Vec<u8> {
    bytes.to_vec(alloc).expect(rt, "memory")
}

fn digit(rt: &impl Abort, byte: u8) -> u8 {
    char::from(byte).to_digit(16).expect(rt, "a digit") as u8
}

/// The bytes of a text, in which `%` and two digits stand for a byte.
pub(crate) fn bytes_of(rt: &impl Abort, alloc: Global, text: &str) -> Vec<u8> {
    let mut bytes = Vec::new(alloc);
    for (number, part) in text.split('%').enumerate() {
        let mut part = part.as_bytes();
        if number > 0 {
            let [first, second, rest @ ..] = part else {
                panic!(rt; "two digits are missing");
            };
            let byte = digit(rt, *first).wrapping_mul(16) | digit(rt, *second);
            bytes.push(byte).expect(rt, "memory");
            part = rest;
        }
        bytes.extend_from_slice(part).expect(rt, "memory");
    }
    bytes
}
