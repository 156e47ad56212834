//! Streams of replies, and what they tell: the replies' offsets, statuses and bodies, each after a mark, then the offset of the
//! rest after `#`, and the fault's place and rule after `!`.

/// Streams of replies.
pub const REPLIES: &str = r#"
=>
// Replies of the collector, one after another.
HTTP/1.1 200 OK\r\nContent-Type: application/json\r\nContent-Length: 27\r\n\r\n{"text":"Success","code":0}HTTP/1.1 400 Bad Request\r\n +
Content-Type: application/json\r\nContent-Length: 2\r\n\r\n{} => @0 200|{"text":"Success","code":0}@98 400|{}
HTTP/1.1 200 OK\r\nContent-Length: 27\r\n\r\n{"text":"Success" => #0
HTTP/1.1 20 => #0
// No reason, LF alone, an empty line before, HTTP/1.0.
\r\nHTTP/1.0 404\ncontent-length: 003\n\nabcH => @0 404|abc#39
// Interim replies have no body, and need say no length.
HTTP/1.1 100 Continue\r\n\r\nHTTP/1.1 200 OK\r\nContent-Length: 1\r\n\r\nx => @25 200|x
HTTP/1.1 103 Early Hints\r\nContent-Length: 5\r\n\r\nHTTP/1.1 199 \r\n\r\n =>
// Chunks.
HTTP/1.1 503 Service Unavailable\r\nTransfer-Encoding: chunked\r\n\r\n2;a=b\r\n{"\r\n3\r\na":\r\n0\r\nT: v\r\n\r\nHTTP/1.1 200 OK\r\n +
Content-Length: 0\r\n\r\n => @0 503|{"a":@94 200|
// Faults of heads.
GET / HTTP/1.1\r\n => #0!0 head
HTTP/1.2 200 OK\r\n => #0!0 head
HTTP/1.1 20x OK\r\n => #0!0 head
HTTP/1.1 100 Continue\r\n\r\nHTTP/1.1 200 OK\r\na b: c\r\n => #25!25 head
// A byte that may stand in no reason, none in a value and none in a name, and a line that is no field.
HTTP/1.1 200 O\x00K => #0!0 head
HTTP/1.1 200 OK\r\na: b\r\nc: d\x01e => #0!0 head
HTTP/1.1 200 OK\na: b\nc( => #0!0 head
\nHTTP/1.0 200\r\na: b\r\ncd\r\n => #0!0 head
// A reply that doesn't say its length, and others against the rules.
HTTP/1.1 200 OK\r\n\r\n => #0!0 length
HTTP/1.1 204 No Content\r\n\r\n => #0!0 length
HTTP/1.1 200 OK\r\nContent-Length: 0\r\n\r\nHTTP/1.1 304 Not Modified\r\n\r\n => @0 200|#38!38 length
HTTP/1.1 200 OK\r\nContent-Length: 2\r\nContent-Length: 2\r\n\r\n{} => #0!0 length
HTTP/1.0 200 OK\r\nTransfer-Encoding: chunked\r\n\r\n => #0!0 length
// A length above the limit, in one number and by chunks.
HTTP/1.1 200 OK\r\nContent-Length: 1048577\r\n\r\n => #0!0 long
HTTP/1.1 200 OK\r\nTransfer-Encoding: chunked\r\n\r\n1\r\na\r\n100000\r\n => #0!0 long
HTTP/1.1 200 OK\r\nTransfer-Encoding: chunked\r\n\r\n1\r\naX => #0!51 chunk"#;
