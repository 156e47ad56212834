//! Streams of requests, and what is read of them: the requests' targets and bodies, each after a bar, then the offset of the rest after
//! `#`, and the fault's place and rule after `!`.

/// Streams without a fault.
pub const STREAMS: &str = r#"
// Lengths.
=>
POST /a HTTP/1.1\r\nContent-Length: 3\r\n\r\nabcGET /b HTTP/1.0\r\n\r\n => |/a|abc|/b|
POST /a HTTP/1.1\ncontent-length: 003\n\nabcP => |/a|abc#41
POST /a HTTP/1.1\r\nContent-Length: 3\r\n\r\nab => #0
POST /a HT => #0
GET / HTTP/1.1\r\nContent-Length: 0\r\n\r\n\r\n => |/|#37
// Continue.
POST /a HTTP/1.1\r\nExpect: 100-Continue\r\nContent-Length: 1\r\n\r\n => |continue#0
POST /a HTTP/1.1\r\nExpect: 100-continue\r\nContent-Length: 1\r\n\r\nx => |continue|/a|x
POST /a HTTP/1.1\r\nExpect: 100-continue\r\nContent-Length: 0\r\n\r\n => |/a|
POST /a HTTP/1.0\r\nExpect: 100-continue\r\nContent-Length: 1\r\n\r\nx => |/a|x
// Chunks.
POST /c HTTP/1.1\r\nTransfer-Encoding: Chunked\r\nExpect: 100-continue\r\n\r\n5\r\n{"eve\r\n8\r\nnt":"a"}\r\n0\r\n\r\n => |continue|/c|{"event":"a"}
POST /c HTTP/1.1\r\nTransfer-Encoding: chunked\r\n\r\n2 ;x=y\r\nab\r\n00\r\nT: v\r\nU:\r\n\r\nGET /d HTTP/1.1\r\n\r\n => |/c|ab|/d|
POST /c HTTP/1.1\r\nTransfer-Encoding: chunked\r\n\r\n2\r\nab\r => #0
// What real clients wrote.
// curl 7.88, two events.
POST /services/collector/event HTTP/1.1\r\nHost: 127.0.0.1:25841\r\nUser-Agent: curl/7.88.1\r\nAccept: */*\r\n +
Authorization: Splunk 11111111-2222-3333-4444-555555555555\r\nContent-Length: 33\r\nContent-Type: application/x-www-form-urlencoded\r\n\r\n +
{"event":"a"}{"event":{"b":1.50}} => |/services/collector/event|{"event":"a"}{"event":{"b":1.50}}
// curl 7.88, HEAD.
HEAD /services/collector/health HTTP/1.1\r\nHost: 127.0.0.1:25862\r\nUser-Agent: curl/7.88.1\r\nAccept: */*\r\n +
Authorization: Splunk 11111111-2222-3333-4444-555555555555\r\n\r\n => |/services/collector/health|
// curl 7.88, GET.
GET /services/collector/health HTTP/1.1\r\nHost: 127.0.0.1:25843\r\nUser-Agent: curl/7.88.1\r\nAccept: */*\r\n\r\n => |/services/collector/health|
// curl 7.88, raw lines.
POST /services/collector/raw?channel=cccccccc-2222-3333-4444-555555555555&sourcetype=x HTTP/1.1\r\nHost: 127.0.0.1:25842\r\n +
User-Agent: curl/7.88.1\r\nAccept: */*\r\nAuthorization: Splunk 11111111-2222-3333-4444-555555555555\r\nContent-Length: 5\r\n +
Content-Type: application/x-www-form-urlencoded\r\n\r\np\r\n\nq +
=> |/services/collector/raw?channel=cccccccc-2222-3333-4444-555555555555&sourcetype=x|p\r\n\nq
// curl 7.88, two requests on one connection.
POST /services/collector/event HTTP/1.1\r\nHost: 127.0.0.1:25852\r\nUser-Agent: curl/7.88.1\r\nAccept: */*\r\n +
Authorization: Splunk aaaaaaaa-2222-3333-4444-555555555555\r\nX-Splunk-Request-Channel: cccccccc-2222-3333-4444-555555555555\r\nContent-Length: 13\r\n +
Content-Type: application/x-www-form-urlencoded\r\n\r\n{"event":"a"}POST /services/collector/ack HTTP/1.1\r\nHost: 127.0.0.1:25852\r\n +
User-Agent: curl/7.88.1\r\nAccept: */*\r\nAuthorization: Splunk aaaaaaaa-2222-3333-4444-555555555555\r\n +
X-Splunk-Request-Channel: cccccccc-2222-3333-4444-555555555555\r\nContent-Length: 21\r\nContent-Type: application/x-www-form-urlencoded\r\n\r\n +
{"acks":[4294967296]} => |/services/collector/event|{"event":"a"}|/services/collector/ack|{"acks":[4294967296]}
// The log driver of Docker 20.10, before its first request.
OPTIONS /services/collector/event/1.0 HTTP/1.1\r\nHost: 127.0.0.1:25221\r\nUser-Agent: Go-http-client/1.1\r\nAccept-Encoding: gzip\r\n\r\n +
=> |/services/collector/event/1.0|"#;

/// Streams with a fault.
pub const FAULTS: &str = r#"
// Faults of heads.
GET\r\n => #0!0 head
GET / HTTP/1.1\r\n\r\n\r\n x => |/|#18!18 head
GET / HTTP/1.2\r\n\r\n => #0!0 head
// Faults of lengths.
POST /services/collector HTTP/1.1\r\nContent-Length: 1x\r\n\r\n => #0!0 length
POST / HTTP/1.1\r\nContent-Length: 33, 33\r\n\r\n => #0!0 length
POST / HTTP/1.1\r\nContent-Length: 1\r\ncontent-length: 1\r\n\r\n => #0!0 length
POST / HTTP/1.1\r\nContent-Length: 1\r\nTransfer-Encoding: chunked\r\n\r\n => #0!0 length
POST / HTTP/1.0\r\nTransfer-Encoding: chunked\r\n\r\n => #0!0 length
POST / HTTP/1.1\r\nTransfer-Encoding: gzip\r\n\r\n => #0!0 length
POST / HTTP/1.1\r\nContent-Length: 1048577\r\n\r\n => #0!0 long
POST /a HTTP/1.1\r\nExpect: 100-continue\r\nContent-Length: 1048577\r\n\r\n => #0!0 long
POST / HTTP/1.1\r\nContent-Length: 99999999999999999999\r\n\r\n => #0!0 long
// Faults of chunks.
POST /services/collector HTTP/1.1\r\nTransfer-Encoding: chunked\r\n\r\nzz\r\n => #0!65 chunk
POST /services/collector HTTP/1.1\r\nTransfer-Encoding: chunked\r\n\r\n1\r\naX => #0!69 chunk
POST /services/collector HTTP/1.1\r\nTransfer-Encoding: chunked\r\n\r\n0\r\n x => #0!68 chunk
GET /a HTTP/1.1\r\n\r\nPOST / HTTP/1.1\r\nTransfer-Encoding: chunked\r\n\r\n100001\r\n => |/a|#19!19 long
POST / HTTP/1.1\r\nTransfer-Encoding: chunked\r\n\r\n1\r\na\r\n100000\r\n => #0!0 long"#;
