//! Texts at the limits of a request and of a reply, and what they tell: within each limit, and beyond it where that is read.

/// The bytes and the fields of a head, a chunk line and a trailer, whole and unfinished. The head of the chunked requests has 47 bytes,
/// and the last chunk's line 3.
pub const LIMITS_OF_REQUESTS: &str = r#"
// A head of 16,384 bytes, and of 16,383 that has not ended.
GET / HTTP/1.1\r\na:~16362*x~\r\n\r\n => |/|
GET / HTTP/1.1\r\na:~16363*x~\r\n\r\n => #0!0 long
GET / HTTP/1.1\r\na:~16365*x~ => #0
GET / HTTP/1.1\r\na:~16366*x~ => #0!0 long
// 64 fields.
GET / HTTP/1.1\r\n~64*a: b\r\n~\r\n => |/|
GET / HTTP/1.1\r\n~65*a: b\r\n~\r\n => #0!0 head
// A chunk line of 1,024 bytes, and of 1,023 that has not ended.
POST / HTTP/1.1\r\nTransfer-Encoding: chunked\r\n\r\n1;~1020*x~\r\na\r\n0\r\n\r\n => |/|a
POST / HTTP/1.1\r\nTransfer-Encoding: chunked\r\n\r\n1;~1021*x~\r\na\r\n0\r\n\r\n => #0!47 chunk
POST / HTTP/1.1\r\nTransfer-Encoding: chunked\r\n\r\n1;~1021*x~ => #0
POST / HTTP/1.1\r\nTransfer-Encoding: chunked\r\n\r\n1;~1022*x~ => #0!47 chunk
// A size of 16 digits.
POST / HTTP/1.1\r\nTransfer-Encoding: chunked\r\n\r\n~15*0~1\r\na\r\n0\r\n\r\n => |/|a
POST / HTTP/1.1\r\nTransfer-Encoding: chunked\r\n\r\n~16*0~1\r\na\r\n0\r\n\r\n => #0!47 chunk
// A trailer of 64 fields, of 16,384 bytes, and of 16,383 that has not ended.
POST / HTTP/1.1\r\nTransfer-Encoding: chunked\r\n\r\n0\r\n~64*a: b\r\n~\r\n => |/|
POST / HTTP/1.1\r\nTransfer-Encoding: chunked\r\n\r\n0\r\n~65*a: b\r\n~\r\n => #0!50 chunk
POST / HTTP/1.1\r\nTransfer-Encoding: chunked\r\n\r\n0\r\na:~16378*x~\r\n\r\n => |/|
POST / HTTP/1.1\r\nTransfer-Encoding: chunked\r\n\r\n0\r\na:~16379*x~\r\n\r\n => #0!50 chunk
POST / HTTP/1.1\r\nTransfer-Encoding: chunked\r\n\r\n0\r\na:~16381*x~ => #0
POST / HTTP/1.1\r\nTransfer-Encoding: chunked\r\n\r\n0\r\na:~16382*x~ => #0!50 chunk"#;

/// What stands after a head's 64 fields.
pub const AT_64_FIELDS: &str = r#"
GET / HTTP/1.1\r\n~64*a: b\r\n~ => #0
GET / HTTP/1.1\r\n~64*a: b\r\n~\r => #0
GET / HTTP/1.1\r\n~64*a: b\r\n~\r\n => |/|
GET / HTTP/1.1\r\n~64*a: b\r\n~X => #0!0 head
GET / HTTP/1.1\r\n~64*a: b\r\n~X: y => #0!0 head
GET / HTTP/1.1\r\n~64*a: b\r\n~X: y\r\n => #0!0 head
GET / HTTP/1.1\r\n~64*a: b\r\n~\rX => #0!0 head"#;

/// Bodies of 1,048,576 bytes and one more, by length, in one chunk and in two, and targets.
pub const BODIES: &str = r#"
POST / HTTP/1.1\r\nContent-Length: 1048576\r\n\r\n~1048576*x~ => |/|(1048576 bytes)
POST / HTTP/1.1\r\nContent-Length: 1048577\r\n\r\n => #0!0 long
POST / HTTP/1.1\r\nTransfer-Encoding: chunked\r\n\r\n100000\r\n~1048576*x~\r\n0\r\n\r\n => |/|(1048576 bytes)
POST / HTTP/1.1\r\nTransfer-Encoding: chunked\r\n\r\n100001\r\n => #0!0 long
POST / HTTP/1.1\r\nTransfer-Encoding: chunked\r\n\r\n1\r\na\r\nfffff\r\n~1048575*x~\r\n0\r\n\r\n => |/|(1048576 bytes)
POST / HTTP/1.1\r\nTransfer-Encoding: chunked\r\n\r\n1\r\na\r\n100000\r\n => #0!0 long
// A target in UTF-8, and one that is no text.
GET /\xc3\xa9 HTTP/1.1\r\n\r\n => |/\xc3\xa9|
GET /\xc3\xff HTTP/1.1\r\n\r\n => #0!0 head"#;

/// A target that has not ended and can no longer be text may be a fault at once, or once it ends.
pub const OPEN_TARGETS: &str = r#"
GET /\xc3\xff~16376*x~ => #0 or #0!0 head
GET /\xc3\xff~16377*x~ => #0!0 long or #0!0 head"#;

/// The bytes and the fields of a reply's head.
pub const LIMITS_OF_REPLIES: &str = r#"
// A head of 16,384 bytes: in a value, in its reason, and with empty lines before it; and one of 16,383 that has
// not ended.
HTTP/1.1 200 OK\r\nContent-Length: 0\r\na:~16342*x~\r\n\r\n => @0 200|
HTTP/1.1 200 OK\r\nContent-Length: 0\r\na:~16343*x~\r\n\r\n => #0!0 long
HTTP/1.1 200 ~16348*x~\r\nContent-Length: 0\r\n\r\n => @0 200|
HTTP/1.1 200 ~16349*x~\r\nContent-Length: 0\r\n\r\n => #0!0 long
~8173*\r\n~HTTP/1.1 200 OK\r\nContent-Length: 0\r\n\r\n => @0 200|
~8174*\r\n~HTTP/1.1 200 OK\r\nContent-Length: 0\r\n\r\n => #0!0 long
HTTP/1.1 200 OK\r\nContent-Length: 0\r\na:~16345*x~ => #0
HTTP/1.1 200 OK\r\nContent-Length: 0\r\na:~16346*x~ => #0!0 long
// 64 fields.
HTTP/1.1 200 OK\r\nContent-Length: 0\r\n~63*a: b\r\n~\r\n => @0 200|
HTTP/1.1 200 OK\r\nContent-Length: 0\r\n~64*a: b\r\n~\r\n => #0!0 head"#;
