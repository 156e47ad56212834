//! Rows that stand as text. Between two rows is an empty line. Each line of a row is a word and, after a space, what it says. A line
//! `- TEXT` is a comment.
use std::alloc::Global;
use std::process::Abort;

/// The first word of a line, and what follows the space after it.
pub(crate) fn word(line: &str) -> (&str, &str) {
    line.split_once(' ').unwrap_or((line, ""))
}

// Whether a word is one of those that stand with a space between them.
fn is_of(word: &str, words: &str) -> bool {
    for one in words.split(' ') {
        if one == word {
            return true;
        }
    }
    false
}

/// Refuses a text with a line that begins with none of these words, or with another number of rows.
pub(crate) fn check_form(rt: &impl Abort, text: &str, words: &str, rows: usize) {
    let mut count = 1_usize;
    for line in text.lines() {
        if line.is_empty() {
            count = count.saturating_add(1);
            continue;
        }
        let (first, _) = word(line);
        assert!(rt; first == "-" || is_of(first, words), "no such line: {line}");
    }
    assert!(rt; count == rows, "{count} rows for {rows}");
}

/// What the row's first line with this word says; this text where it has none.
pub(crate) fn said<'a>(row: &'a str, name: &str, otherwise: &'a str) -> &'a str {
    for line in row.lines() {
        let (first, text) = word(line);
        if first == name {
            return text;
        }
    }
    otherwise
}

/// The numbers that the row's line with this word says, or else this text. They stand with a space between them: `4`, or `4..7`
/// for 4, 5 and 6.
pub(crate) fn numbers(
    rt: &impl Abort,
    alloc: Global,
    row: &str,
    name: &str,
    otherwise: &str,
) -> Vec<u64> {
    let mut out = Vec::new(alloc);
    for part in said(row, name, otherwise).split_whitespace() {
        let (from, until) = part.split_once("..").unwrap_or((part, ""));
        let from = from.parse::<u64>().expect(rt, part);
        let until = until.parse::<u64>().unwrap_or(from.saturating_add(1));
        for number in from..until {
            out.push(number).expect(rt, "memory");
        }
    }
    out
}

/// The number that a text is; 0 where it isn't any.
pub(crate) fn number(text: &str) -> u32 {
    text.parse::<u32>().unwrap_or(0)
}

/// Adds the parts, one after the other.
pub(crate) fn add(rt: &impl Abort, out: &mut Vec<u8>, parts: &[&[u8]]) {
    for part in parts {
        out.extend_from_slice(part).expect(rt, "memory");
    }
}
