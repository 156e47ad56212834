//! What the first value of some bytes is.
use crate::spelling::spell;
use json_span::{JsonFault, Span, first_value};
use std::alloc::Global;
use std::process::Abort;

// What the value at a place is, with places counted from there.
fn told(rt: &impl Abort, alloc: Global, bytes: &[u8], from: usize) -> String {
    assert!(rt; from <= bytes.len());
    let (word, at) = match first_value(bytes, from) {
        Ok(span) => {
            let start = span.start.wrapping_sub(from);
            let end = span.end.wrapping_sub(from);
            return format!(in alloc; "{start} {end}").expect(rt, "memory");
        }
        Err(JsonFault::Cut) => return String::from_str(alloc, "cut").expect(rt, "memory"),
        Err(JsonFault::NotJson { at }) => ("at", at.wrapping_sub(from)),
        Err(JsonFault::TooDeep { at }) => ("deep", at.wrapping_sub(from)),
    };
    format!(in alloc; "{word} {at}").expect(rt, "memory")
}

/// Each row has an answer, a bar and bytes. The expected answers are those of Python's `json` and `utf-8` on the same bytes and
/// on their fronts with other ends, places of characters that are broken off aside, which follow from the definition.
pub fn check(rt: &impl Abort, alloc: Global, table: &str) {
    for line in table.lines() {
        let (want, spelt) = line.split_once('|').expect(rt, "a bar");
        // What stands before the value doesn't count.
        for before in ["", "]\"x"] {
            let mut bytes = Vec::new(alloc);
            spell(rt, before, &mut bytes);
            spell(rt, spelt, &mut bytes);
            let told = told(rt, alloc, &bytes, before.len());
            assert!(rt; told.as_str() == want, "{line}");
        }
    }
}

/// Values that each end with a byte of their own, so that each of their fronts is cut.
const WHOLE: &str = r#"{"a":[1,-2.5e+3,true,false,null,{}],"b":{"c":"d\n\u00e9é€😀"}}
[ [ ] , { "x" : 0.0 } , [ [ "" ] , -0 ] , "\ud800" ]
"sixteen letters and more, é, then \"quoted\" and ends"
true
false
null"#;

/// Each front of a value that ends with a byte of its own is cut.
pub fn fronts_are_cut(rt: &impl Abort) {
    for text in WHOLE.lines() {
        let bytes = text.as_bytes();
        for end in 0..bytes.len() {
            assert!(rt;
                first_value(&bytes[..end], 0) == Err(JsonFault::Cut),
                "{end}: {text}"
            );
        }
        let whole = Span {
            start: 0,
            end: bytes.len(),
        };
        assert!(rt; first_value(bytes, 0) == Ok(whole), "{text}");
    }
}

// A string is read so in which this byte stands at a place.
fn is_read(rt: &impl Abort, string: &mut [u8], at: usize, byte: u8) {
    let whole = Ok(Span {
        start: 0,
        end: string.len(),
    });
    let want = match byte {
        b' ' | b'!' | b'#' | b'[' | b']' | 126 | 127 => whole,
        b'"' => Ok(Span {
            start: 0,
            end: at.wrapping_add(1),
        }),
        _ => Err(JsonFault::NotJson { at }),
    };
    assert!(rt; at < string.len());
    string[at] = byte;
    assert!(rt; first_value(string, 0) == want, "{byte} at {at}");
    string[at] = b'a';
}

/// Strings of each length about sixteen and thirty-two bytes, with something else at each place.
pub fn long_strings_are_read_as_short_ones(rt: &impl Abort, alloc: Global) {
    for length in 0..40 {
        let mut string = vec![in alloc; b'a'; length + 2].expect(rt, "memory");
        string[0] = b'"';
        assert!(rt; first_value(&string, 0) == Err(JsonFault::Cut));
        string[length + 1] = b'"';
        let whole = Span {
            start: 0,
            end: length + 2,
        };
        assert!(rt; first_value(&string, 0) == Ok(whole));
        for at in 1..length + 1 {
            for byte in b" !#[]\x7e\x7f\x00\x1f\x80\xc1\xf5\xff\"" {
                is_read(rt, &mut string, at, *byte);
            }
        }
    }
}
