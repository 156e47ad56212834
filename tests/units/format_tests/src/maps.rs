//! The forms of events.
use crate::spelling::{add, spell};
use event_form::{Blob, read_entry};
use event_map::{as_hec_object, as_json_object, as_text};
use std::alloc::{AllocError, Global};
use std::process::Abort;

// The origin of Lumberjack's pairs.
const PAIRS: u8 = 2;

/// Events, each an origin and a text, and their JSON objects and event objects. The origins are the bytes that stand for them in an
/// entry: 1 for RELP, 2 and 3 for the pairs and the JSON of Lumberjack, 4 and 5 for the objects and the lines of the collector.
const FORMS: &str = r#"1: hello => {"message":"hello"} => {"event":"hello"}
5: {} => {"message":"{}"} => {"event":"{}"}
1: => {"message":""} => {"event":"-"}
5: => {"message":""} => {"event":"-"}
3: => {"message":""} => {"event":"-"}
// One object, white space round it too, and what isn't one object.
3: {"a":1} => {"a":1} => {"event":{"a":1}}
3: %20{}%0a => %20{}%0a => {"event": {}%0a}
3: [1] => {"message":"[1]"} => {"event":"[1]"}
3: %20{} x => {"message":" {} x"} => {"event":" {} x"}
// Another value than an object, white space alone, no UTF-8 in a string, a comma too many.
3: "x" => {"message":"\"x\""} => {"event":"\"x\""}
3: %20%0a => {"message":" \n"} => {"event":" \n"}
3: {"a":"%ff"} => {"message":"{\"a\":\"%ef%bf%bd\"}"} => {"event":"{\"a\":\"%ef%bf%bd\"}"}
3: {"a":1,} => {"message":"{\"a\":1,}"} => {"event":"{\"a\":1,}"}
// An escape of a lone surrogate is one of RFC 8259's.
3: {"a":"\ud800"} => {"a":"\ud800"} => {"event":{"a":"\ud800"}}
// Pairs: one key twice, with values that need escapes.
2: %00%00%00%01a%00%00%00%01"%00%00%00%01a%00%00%00%02\%0a => {"a":"\"","a":"\\\n"} => {"event":{"a":"\"","a":"\\\n"}}
// Pairs: a=x and a=y, none, an empty one, and a quote and no UTF-8.
2: %00%00%00%01a%00%00%00%01x%00%00%00%01a%00%00%00%01y => {"a":"x","a":"y"} => {"event":{"a":"x","a":"y"}}
2: => {} => {"event":{}}
2: %00%00%00%00%00%00%00%00 => {"":""} => {"event":{"":""}}
2: %00%00%00%02"k%00%00%00%02%ff%0a => {"\"k":"%ef%bf%bd\n"} => {"event":{"\"k":"%ef%bf%bd\n"}}
// Quotes, a backslash, controls, and what needs no escape.
1: "\%08%0c%0a%0d%09%00%1f%7f/ => {"message":"\"\\\b\f\n\r\t\u0000\u001f%7f/"} => {"event":"\"\\\b\f\n\r\t\u0000\u001f%7f/"}
// U+2028, a byte that is in no UTF-8, and sequences that are cut.
1: a%e2%80%a8b => {"message":"a%e2%80%a8b"} => {"event":"a%e2%80%a8b"}
1: %ed%a0%80 => {"message":"%ef%bf%bd%ef%bf%bd%ef%bf%bd"} => {"event":"%ef%bf%bd%ef%bf%bd%ef%bf%bd"}
1: a%ffb => {"message":"a%ef%bf%bdb"} => {"event":"a%ef%bf%bdb"}
5: %e2%82b%f0%9f%98 => {"message":"%ef%bf%bdb%ef%bf%bd"} => {"event":"%ef%bf%bdb%ef%bf%bd"}
4: { "event":"x","time":1} => { "event":"x","time":1} => { "event":"x","time":1}"#;

fn bytes_of(rt: &impl Abort, alloc: Global, spelt: &str) -> Vec<u8> {
    let mut bytes = Vec::new(alloc);
    spell(rt, spelt.trim(), &mut bytes);
    bytes
}

// The entry of an event, all its numbers 0.
fn entry_of(rt: &impl Abort, alloc: Global, origin: u8, text: &[u8]) -> Vec<u8> {
    let length = u32::try_from(text.len())
        .ok()
        .expect(rt, "a text that isn't too long");
    let mut entry = vec![in alloc; 0; 25].expect(rt, "memory");
    entry[0] = origin;
    add(rt, &mut entry, &length.to_be_bytes());
    add(rt, &mut entry, text);
    entry
}

fn is(rt: &impl Abort, form: Result<Blob, AllocError>, want: &[u8]) -> bool {
    form.expect(rt, "memory").bytes() == want
}

// Whether the event of an entry has these forms: as a text, as a JSON object, and as an event object.
fn has_forms(rt: &impl Abort, alloc: Global, entry: &[u8], forms: [&[u8]; 3]) -> bool {
    let took = read_entry(alloc, entry).ok().expect(rt, "an entry");
    let event = &took.entry.event;
    let [plain, json, hec] = forms;
    is(rt, as_text(alloc, event), plain)
        && is(rt, as_json_object(alloc, event), json)
        && is(rt, as_hec_object(alloc, event), hec)
}

fn check_row(rt: &impl Abort, alloc: Global, row: &str) {
    let (origin, rest) = row.split_once(':').expect(rt, "an origin");
    let (text, rest) = rest.split_once("=>").expect(rt, "a JSON object");
    let (json, hec) = rest.split_once("=>").expect(rt, "an event object");
    let origin = origin.parse::<u8>().expect(rt, "a byte");
    let text = bytes_of(rt, alloc, text);
    let json = bytes_of(rt, alloc, json);
    let hec = bytes_of(rt, alloc, hec);
    let entry = entry_of(rt, alloc, origin, &text);
    let plain = if origin == PAIRS { &json } else { &text };
    assert!(rt; has_forms(rt, alloc, &entry, [plain, &json, &hec]), "{row}");
}

/// Each event has its forms. As a text, pairs are their JSON object, and any other event is its own text.
pub fn each_event_has_its_forms(rt: &impl Abort, alloc: Global) {
    for row in FORMS.lines() {
        if !row.starts_with("//") {
            check_row(rt, alloc, row);
        }
    }
}
