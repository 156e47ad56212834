//! Connections of the collector whose requests are refused by their heads, in the middle of whose bodies reads end: what is answered,
//! and where a fault lies, is the same wherever the bytes are cut, the body read past or not.

/// How many bytes a read brings, from 1 on, for each row.
pub(crate) const STEPS: usize = 240;

/// What is sent, and what comes of it.
pub(crate) const PAST: &str =
    r#"row bodies of a length that are refused, before and after one that is wanted
- No token, another one, no path, another method, another coding, a question without acks; and one that is stored in between.
in POST /services/collector/event HTTP/1.1\r\nContent-Length: 14\r\n\r\n
in {"event":"ab"}
in POST /services/collector/event HTTP/1.1\r\n
in Authorization: Splunk 11111111-2222-3333-4444-555555555556\r\nContent-Length: 14\r\n\r\n
in {"event":"ab"}
in POST /services/collector/event HTTP/1.1\r\n
in Authorization: Splunk 11111111-2222-3333-4444-555555555555\r\nContent-Length: 14\r\n\r\n
in {"event":"ab"}
in POST /none HTTP/1.1\r\nContent-Length: 19\r\n\r\n
in POST / HTTP/1.1\r\n\r\n
in PUT /services/collector/raw HTTP/1.1\r\nContent-Length: 3\r\n\r\n
in a\r\n
in POST /services/collector/event HTTP/1.1\r\n
in Authorization: Splunk 11111111-2222-3333-4444-555555555555\r\nContent-Encoding: gzip\r\nContent-Length: 14\r\n\r\n
in {"event":"ab"}
in POST /services/collector/ack HTTP/1.1\r\n
in Authorization: Splunk 11111111-2222-3333-4444-555555555555\r\nContent-Length: 12\r\n\r\n
in {"acks":[1]}
steps 1000 8192
ends Ended, 1 taken
out HTTP/1.1 401 Unauthorized\r\nContent-Type: application/json\r\nContent-Length: 37\r\n\r\n
out {"text":"Token is required","code":2}
out HTTP/1.1 403 Forbidden\r\nContent-Type: application/json\r\nContent-Length: 33\r\n\r\n
out {"text":"Invalid token","code":4}
out HTTP/1.1 200 OK\r\nContent-Type: application/json\r\nContent-Length: 27\r\n\r\n
out {"text":"Success","code":0}
out HTTP/1.1 404 Not Found\r\nContent-Type: application/json\r\nContent-Length: 31\r\n\r\n
out {"text":"Not found","code":404}
out HTTP/1.1 405 Method Not Allowed\r\nContent-Type: application/json\r\nContent-Length: 40\r\n\r\n
out {"text":"Method not allowed","code":405}
out HTTP/1.1 400 Bad Request\r\nContent-Type: application/json\r\nContent-Length: 39\r\n\r\n
out {"text":"Invalid data format","code":6}
out HTTP/1.1 400 Bad Request\r\nContent-Type: application/json\r\nContent-Length: 36\r\n\r\n
out {"text":"ACK is disabled","code":14}
entries 7 0 0 o{"event":"ab"}\n

row chunks that are refused, and a request after them
in POST /services/collector/event HTTP/1.1\r\nTransfer-Encoding: chunked\r\n\r\n
in 5;a="b"\r\n0\r\n\r\n\r\n
in 0a\r\n0123456789\r\n
in 000\r\nMore: of it\r\n\r\n
in GET /services/collector/health HTTP/1.1\r\n\r\n
in POST /services/collector/event?token=1 HTTP/1.1\r\nExpect: 100-continue\r\nTransfer-Encoding: chunked\r\n\r\n
in 1\r\nx\r\n0\r\n\r\n
steps 1000
ends Ended, 0 taken
out HTTP/1.1 401 Unauthorized\r\nContent-Type: application/json\r\nContent-Length: 37\r\n\r\n
out {"text":"Token is required","code":2}
out HTTP/1.1 200 OK\r\nContent-Type: application/json\r\nContent-Length: 35\r\n\r\n
out {"text":"HEC is healthy","code":17}
out HTTP/1.1 100 Continue\r\n\r\n
out HTTP/1.1 400 Bad Request\r\nContent-Type: application/json\r\nContent-Length: 62\r\n\r\n
out {"text":"Query string authorization is not enabled","code":16}

row a refused body whose request closes is the last one
in POST /services/collector/event HTTP/1.1\r\nConnection: close\r\nContent-Length: 14\r\n\r\n
in {"event":"ab"}
in POST /services/collector/event HTTP/1.1\r\n
in Authorization: Splunk 11111111-2222-3333-4444-555555555555\r\nContent-Length: 14\r\n\r\n
in {"event":"ab"}
steps 1000
ends Closed, 0 taken
out HTTP/1.1 401 Unauthorized\r\nContent-Type: application/json\r\nContent-Length: 37\r\nConnection: close\r\n\r\n
out {"text":"Token is required","code":2}

row a refused body without its end
in POST /services/collector/event HTTP/1.1\r\nContent-Length: 1\r\n\r\n
in x
in POST /services/collector/event HTTP/1.1\r\nContent-Length: 14\r\n\r\n
in {"event":"ab"
steps 1000
ends Truncated { at: 63 }, 0 taken
out HTTP/1.1 401 Unauthorized\r\nContent-Type: application/json\r\nContent-Length: 37\r\n\r\n
out {"text":"Token is required","code":2}

row a chunk line in a refused body that is none
- It lies 79 bytes after the request's first one: 71 of the head, and 8 of the chunk before it.
in POST /services/collector/event HTTP/1.1\r\nTransfer-Encoding: chunked\r\n\r\n
in 3\r\nabc\r\n
in q\r\n
in POST /services/collector/event HTTP/1.1\r\n
steps 1000
ends Fault { at: 79, why: BadChunk }, 0 taken
out HTTP/1.1 400 Bad Request\r\nContent-Type: application/json\r\nContent-Length: 39\r\nConnection: close\r\n\r\n
out {"text":"Invalid data format","code":6}

row no line end after a chunk of a refused body
in POST /services/collector/event HTTP/1.1\r\nTransfer-Encoding: chunked\r\n\r\n
in 3\r\nabcd\r\n
steps 1000
ends Fault { at: 77, why: BadChunk }, 0 taken
out HTTP/1.1 400 Bad Request\r\nContent-Type: application/json\r\nContent-Length: 39\r\nConnection: close\r\n\r\n
out {"text":"Invalid data format","code":6}

row a trailer of a refused body that is none
in POST /services/collector/event HTTP/1.1\r\nTransfer-Encoding: chunked\r\n\r\n
in 3\r\nabc\r\n
in 0\r\n : a\r\n\r\n
steps 1000
ends Fault { at: 82, why: BadChunk }, 0 taken
out HTTP/1.1 400 Bad Request\r\nContent-Type: application/json\r\nContent-Length: 39\r\nConnection: close\r\n\r\n
out {"text":"Invalid data format","code":6}

row chunks of a refused body above the limit
- The sum of the sizes is judged as of a body that is kept: it is 1,048,577.
in POST /services/collector/event HTTP/1.1\r\nTransfer-Encoding: chunked\r\n\r\n
in 3\r\nabc\r\n
in FFFFE\r\nabc
steps 1000
ends Fault { at: 0, why: TooLong }, 0 taken
out HTTP/1.1 400 Bad Request\r\nContent-Type: application/json\r\nContent-Length: 39\r\nConnection: close\r\n\r\n
out {"text":"Invalid data format","code":6}

row chunks of a refused body at the limit
in POST /services/collector/event HTTP/1.1\r\nTransfer-Encoding: chunked\r\n\r\n
in 3\r\nabc\r\n
in FFFFD\r\nabc
steps 1000
ends Truncated { at: 0 }, 0 taken
out

row a read that fails in a refused body
in POST /services/collector/event HTTP/1.1\r\nContent-Length: 14\r\n\r\n
in {"event":"ab"
steps 1000
reads 1
ends ReadFault, 0 taken
out "#;
