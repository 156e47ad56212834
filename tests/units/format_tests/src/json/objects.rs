//! Which texts are objects, and where their members stand.
ghost use Rattle.std.specs.Prelude.{◌≤◌, length};

use crate::spelling::spell;
use json_span::{Member, Span, first_value, is_object, members};
use std::alloc::Global;
use std::process::Abort;

/// Whether Python's `json` reads a text as one object. It may have 127 levels.
const OBJECTS: &str = r#"yes|{}
yes| { }%20
yes|%09%0d%0a{"a":1}%0a
yes|{"a":1,"a":2}
yes|{"a":{"b":[1,2,{}]}}
yes|{"":""}
yes|{"\ud800":"%c3%a9"}
yes|{"a" : 1 , "b" : -2e3}
yes|{"a":[],"b":null,"c":true}
no|
no|%20
no|[]
no|[{}]
no|"{}"
no|1
no|null
no|{
no|{}{}
no|{} {}
no|{},
no|{}x
no|{} x
no|x{}
no|{}%00
no|%0b{}
no|{}%0c
no|%ef%bb%bf{}
no|{"a"}
no|{"a":}
no|{"a":1,}
no|{,}
no|{"a":1 "b":2}
no|{a:1}
no|{'a':1}
no|{"a":1
no|{"a":1]
no|{"a":1}}
no|{"a":"%09"}
no|{"a":"\x"}
no|{"a":"%ff"}
no|{"a":01}
no|{"a":1.}
no|{"a":NaN}
no|{1:2}
no|{}%ff
no|{"":~127*[~~127*]~}
yes|{"": ~126*[~~126*]~ }"#;

/// Each text is one object and white space, or isn't.
pub fn objects(rt: &impl Abort, alloc: Global) {
    for line in OBJECTS.lines() {
        let (want, spelt) = line.split_once('|').expect(rt, "a bar");
        let mut bytes = Vec::new(alloc);
        spell(rt, spelt, &mut bytes);
        let told = if is_object(&bytes) { "yes" } else { "no" };
        assert!(rt; told == want, "{line}");
    }
}

/// The members of the object that stands at a place.
fn first_members(alloc: Global, bytes: &[u8], at: usize) -> Option<Vec<Member>>
    requires { at ≤ length bytes.now }
{
    match first_value(bytes, at) {
        Ok(object) if bytes[object.start] == b'{' => members(alloc, bytes, object).ok(),
        _ => None,
    }
}

/// The starts and ends of the members' names and values, the place of the object, and the text.
const MEMBERS: &str = r#"|0|{}
|1|[{ }]
1 4,5 6,8 11,12 15,|0|{"a":1, "a":[2]}
1 4,5 6,7 10,11 12,13 16,17 18,|0|{"a":1,"b":2,"a":1}
2 5,8 21,24 27,28 38,|1| {"x" : {"y":{"z":1}} , "w":[ {}, [] ]}%20%20
1 3,4 6,8 15,16 23,|0|{"":"" ,"\"k\\":"v,}:{"}
1 4,5 12,13 16,17 21,22 25,26 30,31 34,35 43,|0|{"a":-1.5e+3,"b":true,"c":null,"d":"\u0041"}
4 8,9 16,|3|[0,{"in":{"a":1}},2]
6 9,10 11,|5|{"o":{"i":1}}"#;

// The starts and the ends of the members' names and values.
fn told(rt: &impl Abort, alloc: Global, members: &[Member]) -> String {
    let mut told = String::new(alloc);
    for member in members {
        for Span { start, end } in [member.name, member.value] {
            let places = format!(in alloc; "{start} {end},").expect(rt, "memory");
            told.push_str(&places).expect(rt, "memory");
        }
    }
    told
}

/// The members of each object stand in their order.
pub fn members_in_order(rt: &impl Abort, alloc: Global) {
    for line in MEMBERS.lines() {
        let (want, rest) = line.split_once('|').expect(rt, "a bar");
        let (at, spelt) = rest.split_once('|').expect(rt, "a second bar");
        let at = at.parse::<usize>().expect(rt, "a place");
        let mut bytes = Vec::new(alloc);
        spell(rt, spelt, &mut bytes);
        assert!(rt; at <= bytes.len());
        let found = first_members(alloc, &bytes, at).expect(rt, "an object");
        assert!(rt; told(rt, alloc, &found).as_str() == want, "{line}");
    }
}
