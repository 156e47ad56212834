//! What windows hold and give.

/// Streams, how many of their bytes are held, and how many once all items are given.
pub const HELD: &str = r#"
GET / HTTP/1.1\r => 15 15
// Of a request that waits the head and the body.
POST /a HTTP/1.1\nContent-Length: 3\n\nabc => 39 0
// The head of an unfinished request is kept beside where nothing waits.
POST /a HTTP/1.1\nContent-Length: 3\n\nab => 2 2
GET / HTTP/1.1\n\nPOST /a HTTP/1.1\nContent-Length: 3\n\nab => 54 2
// Of chunks their data, and what isn't read yet.
POST / HTTP/1.1\nTransfer-Encoding: chunked\n\n2\r\nab\r\n0 => 3 3
// After a fault what waits.
GET / HTTP/1.1\n\nGET\n => 16 0
GET / HTTP/1.1\n\nPOST / HTTP/1.1\nTransfer-Encoding: chunked\n\n2\r\nabc => 16 0"#;

/// Streams, how many of their bytes a window doesn't take, and how many of these it takes once an item is given.
pub const FULL: &str = r#"
// A window holds 1,064,960 bytes. 18 bytes a request: the rest is 60,000 * 18 - 1,064,960.
~60000*GET / HTTP/1.1\r\n\r\n~ => 15040 18
// 39 bytes a request: the rest is 30,000 * 39 - 1,064,960.
~30000*POST /a HTTP/1.1\nContent-Length: 3\n\nabc~ => 105040 39
// Of 57 bytes a request 47 are held, those of its head and its chunk's data: 22,658 requests, and the first 34 bytes of another
// head. The rest is 30,000 * 57 - 22,658 * 57 - 34.
~30000*POST / HTTP/1.1\nTransfer-Encoding: chunked\n\n3\r\nabc\r\n0\r\n\r\n~ => 418460 47"#;

/// A request: its minor version and how many fields it has, its method, its target, whether its connection ends, the values of
/// its first `host` and its first `hos`, and its body.
pub const FIRST: &str = r#"
POST / HTTP/1.1\r\nHost: close\r\nX: y\r\n\r\n => 1 2|POST|/|stays|close|-|
POST / HTTP/1.0\r\nHost: h\r\nX: y\r\n\r\n => 0 2|POST|/|closes|h|-|
HEAD / HTTP/1.1\r\nHost: h\r\nX: y\r\n\r\n => 1 2|HEAD|/|closes|h|-|
head / HTTP/1.1\r\nHost: h\r\nX: y\r\n\r\n => 1 2|head|/|stays|h|-|
POST / HTTP/1.1\r\nconnection: a, \tCLOSE ,b\r\nX: y\r\n\r\n => 1 2|POST|/|closes|-|-|
POST / HTTP/1.1\r\nConnection: keep-alive\r\nConnection: close\r\n\r\n => 1 2|POST|/|closes|-|-|
POST / HTTP/1.1\r\nConnection: closed,clo se\r\nConnection: \r\n\r\n => 1 2|POST|/|stays|-|-|
POST / HTTP/1.1\r\nConnections: close\r\nX: y\r\n\r\n => 1 2|POST|/|stays|-|-|
// The first of two fields of a name counts, ASCII case aside, and a part of the name is none.
GET / HTTP/1.1\r\nHost: a\r\nHOST: b\r\n\r\n => 1 2|GET|/|stays|a|-|
// A request is copied whole.
POST /a HTTP/1.1\r\nHost: h\r\nContent-Length: 3\r\n\r\nabc => 1 2|POST|/a|stays|h|-|abc"#;
