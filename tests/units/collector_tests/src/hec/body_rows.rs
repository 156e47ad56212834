//! Bodies and what they are cut into, and ack queries and the ids that they ask for, or the fault.

/// Bodies, and their event objects or their fault.
pub const EVENT_BODIES: &str = r#"
{"event":"a"}{"event":{"b":1.50}} => [{"event":"a"}][{"event":{"b":1.50}}]
\x20{"event":"a"}\r\n\t{"time":1,"event":0}\n => [{"event":"a"}][{"time":1,"event":0}]
{ "event" : [] } => [{ "event" : [] }]
{"event":" "} => [{"event":" "}]
{"event":"\ud800"} => [{"event":"\ud800"}]
=> NoData
\x20\t\r\n => NoData
{"event":"a"} {"evnt":1} => NoEvent { event: 1 }
[{"event":"a"}] => Format { event: 0 }
1 => Format { event: 0 }
x => Format { event: 0 }
{"event": => Format { event: 0 }
{"event":"a"}x => Format { event: 1 }
{"event":"a"},{"event":"b"} => Format { event: 1 }
{"event":"a"}{"event": => Format { event: 1 }
{"event":""} => Blank { event: 0 }
{"event":null} => Blank { event: 0 }
{"event":0}{"event": null }x => Blank { event: 1 }
// The first member of that name counts.
{"event":"","event":1} => Blank { event: 0 }
{"event":1,"event":""} => [{"event":1,"event":""}]
// Names are compared as they are spelt, at the first level.
{"\u0065vent":1} => NoEvent { event: 0 }
{"\u0065vent":"","event":1} => [{"\u0065vent":"","event":1}]
{"Event":1} => NoEvent { event: 0 }
{"fields":{"event":1}} => NoEvent { event: 0 }
{} => NoEvent { event: 0 }
// The first object at fault decides.
{}{"event":""} => NoEvent { event: 0 }
{"event":""}{} => Blank { event: 0 }
{"event":1}{"event":""}{}x => Blank { event: 1 }
{"event":1}{}{"event": => NoEvent { event: 1 }"#;

/// Long bodies of event objects.
pub const LIMITS_OF_EVENTS: &str = r#"
// Arrays, each in the next.
{"event":~126*[~~126*]~} => [{"event":~126*[~~126*]~}]
{"event":~127*[~~127*]~} => Format { event: 0 }
~10000*{"event":1}~ => ~10000*[{"event":1}]~
~10000*{"event":1}~ \n => ~10000*[{"event":1}]~
~10000*{"event":1}~{} => TooMany
~10000*{"event":1}~{"event": => Format { event: 10000 }
~10000*{"event":1}~1 => Format { event: 10000 }
// An object of 131,072 bytes, and one of a byte more.
{~131061* ~"event":1} => [{~131061* ~"event":1}]
{~131062* ~"event":1} => Format { event: 0 }"#;

/// Lines, and the fault or the events.
pub const RAW_BODIES: &str = r#"
p\r\n\nq => [p][q]
\r\n\n => NoData
=> NoData
a\r\nb => [a][b]
a\r => [a\r]
\r => [\r]
a\r\r\n => [a\r]
a\rb\n => [a\rb]
\n\na\n\n => [a]
\x20\n => [ ]
{"event":""}\nnull => [{"event":""}][null]
a\nb\nc => [a][b][c]
\xff\x00\n => [\xff\x00]"#;

/// Long bodies of lines.
pub const LIMITS_OF_LINES: &str = r#"
~131072*a~ => [~131072*a~]
~131072*a~\r\n => [~131072*a~]
~131073*a~ => Format { event: 0 }
~131072*a~\r => Format { event: 0 }
~10000*a\n~\r\n\n => ~10000*[a]~
~10000*a\n~\nb => TooMany"#;

/// Ack queries, and the ids that they ask for, or the fault.
pub const QUERIES: &str = r#"
{"acks":[4294967296]} => [4294967296]
{"acks":[]} => []
\x20{"acks" : [ 3 , 1,3,2,1 ] }\x20 => [3, 1, 2]
{"acks":[18446744073709551615,0]} => [18446744073709551615, 0]
// The last member of that name counts, and names have escapes.
{"acks":[1],"acks":[2]} => [2]
{"acks":1,"acks":[2]} => [2]
{"a":[null,-1.5],"\u0061cks":[7],"b":{"acks":[8]}} => [7]
{"acks":[9],"x":"\ud83d\ude00"} => [9]
// Bodies that are no ack queries.
=> Format
x => Format
[1] => Format
{} => Format
{"Acks":[1]} => Format
{"acks":1} => Format
{"acks":null} => Format
{"acks":{}} => Format
{"acks":[1]}x => Format
{"acks":[1],"acks":2} => Format
{"acks":[1,-0]} => Format
{"acks":[-1]} => Format
{"acks":[1.0]} => Format
{"acks":[1e2]} => Format
{"acks":[18446744073709551616]} => Format
{"acks":["1"]} => Format
{"acks":[[1]]} => Format
{"acks":[1],"x":"\ud800"} => Format
{"acks":[1],"x":1e999} => Format
{"acks":[1],"x":"\xff"} => Format"#;

/// Long ack queries.
pub const LIMITS_OF_QUERIES: &str = r#"
// A query of 10,000 ids, and one of an id more.
{"acks":[~9999*1,~1]} => [1]
{"acks":[~10000*1,~1]} => Format"#;
