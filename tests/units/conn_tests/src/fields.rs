//! Rows that stand as text. Between two rows is an empty line. A line of a row is a word and, after a space, what it says; the lines
//! with one word are one field, and follow on one another. A line `- TEXT` is a comment.
//!
//! Bytes are spelled as they stand, and by `\n`, `\r`, `\0` and `\x` with two digits; `\{COUNT}` are so many letters x.
use std::alloc::Global;
use std::process::Abort;

// The first word of a line, and what follows the space after it.
fn word(line: &str) -> (&str, &str) {
    line.split_once(' ').unwrap_or((line, ""))
}

// Whether a word is one of those that stand with a space between them.
fn is_of(word: &str, words: &str) -> bool {
    for one in words.split(' ') {
        if one == word {
            return true;
        }
    }
    false
}

/// Refuses a text with a line that begins with none of these words, or with another number of rows.
pub(crate) fn check_form(rt: &impl Abort, text: &str, words: &str, rows: usize) {
    let mut count = 1_usize;
    for line in text.lines() {
        let (first, _) = word(line);
        if line.is_empty() {
            count = count.saturating_add(1);
        } else {
            assert!(rt; first == "-" || is_of(first, words), "no such line: {line}");
        }
    }
    assert!(rt; count == rows, "{count} rows for {rows}");
}

// What stands after a backslash: a byte, how many of it, and what comes next.
fn escaped(part: &str) -> Option<(u8, usize, &str)> {
    let (kind, rest) = part.split_at_checked(1)?;
    match kind.as_bytes() {
        b"n" => Some((b'\n', 1, rest)),
        b"r" => Some((b'\r', 1, rest)),
        b"0" => Some((0, 1, rest)),
        b"x" => {
            let (digits, rest) = rest.split_at_checked(2)?;
            Some((u8::from_str_radix(digits, 16).ok()?, 1, rest))
        }
        b"{" => {
            let (count, rest) = rest.split_once('}')?;
            Some((b'x', count.parse::<usize>().ok()?, rest))
        }
        _ => None,
    }
}

// Adds the bytes that are spelled so.
fn add(rt: &impl Abort, bytes: &mut Vec<u8>, spelled: &str) {
    for (number, part) in spelled.split('\\').enumerate() {
        if number == 0 {
            bytes
                .extend_from_slice(part.as_bytes())
                .expect(rt, "memory");
            continue;
        }
        let (byte, times, rest) = escaped(part).expect(rt, spelled);
        let fill = vec![in *bytes.allocator(); byte; times].expect(rt, "memory");
        bytes.extend_from_slice(&fill).expect(rt, "memory");
        bytes
            .extend_from_slice(rest.as_bytes())
            .expect(rt, "memory");
    }
}

/// The bytes that the lines of a field spell, one after another.
pub(crate) fn bytes_of(rt: &impl Abort, alloc: Global, row: &str, field: &str) -> Vec<u8> {
    let mut bytes = Vec::new(alloc);
    for line in row.lines() {
        let (first, spelled) = word(line);
        if first == field {
            add(rt, &mut bytes, spelled);
        }
    }
    bytes
}

/// The numbers of a field, which stand with a space between them.
pub(crate) fn numbers_of(rt: &impl Abort, alloc: Global, row: &str, field: &str) -> Vec<u64> {
    let mut numbers = Vec::new(alloc);
    for line in row.lines() {
        let (first, spelled) = word(line);
        if first != field {
            continue;
        }
        for number in spelled.split(' ') {
            let number = number.parse::<u64>().expect(rt, line);
            numbers.push(number).expect(rt, "memory");
        }
    }
    numbers
}

/// The one number of a field; this one where the row hasn't the field.
pub(crate) fn number_of(rt: &impl Abort, row: &str, field: &str, otherwise: u64) -> u64 {
    let mut found = None;
    for line in row.lines() {
        let (first, number) = word(line);
        if first == field {
            assert!(rt; found.is_none(), "a second {field}: {line}");
            found = Some(number.parse::<u64>().expect(rt, line));
        }
    }
    found.unwrap_or(otherwise)
}
