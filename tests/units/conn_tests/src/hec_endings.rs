//! Connections of the collector, and how they end: at a request that closes, at bytes that are none, and where the spool or the
//! table of ids refuses, or a read fails.

/// What is sent, and what comes of it.
pub(crate) const ENDINGS: &str = r#"row a request that closes is the last one
- A request that closes is answered so, and nothing after it is read.
in POST /services/collector/event HTTP/1.1\r\n
in Authorization: Splunk 11111111-2222-3333-4444-555555555555\r\nConnection: close\r\nContent-Length: 11\r\n\r\n
in {"event":1}
in POST /services/collector/event HTTP/1.1\r\n
in Authorization: Splunk 11111111-2222-3333-4444-555555555555\r\nContent-Length: 11\r\n\r\n
in {"event":2}
steps 1 7 1000
ends Closed, 1 taken
out HTTP/1.1 200 OK\r\nContent-Type: application/json\r\nContent-Length: 27\r\nConnection: close\r\n\r\n
out {"text":"Success","code":0}
entries 7 0 0 o{"event":1}\n

row a request of HTTP/1.0 closes, with acks
- So is one of HTTP/1.0, with acks.
in POST /services/collector/event HTTP/1.0\r\n
in Authorization: Splunk aaaaaaaa-2222-3333-4444-555555555555\r\n
in X-Splunk-Request-Channel: cccccccc-2222-3333-4444-555555555555\r\nContent-Length: 11\r\n\r\n
in {"event":1}
in ?
steps 1 7 1000
ends Closed, 1 taken
out HTTP/1.1 200 OK\r\nContent-Type: application/json\r\nContent-Length: 46\r\nConnection: close\r\n\r\n
out {"text":"Success","code":0,"ackId":4294967296}
entries 7 0 4294967296 o{"event":1}\n

row a closing request that is refused
in POST /services/collector/event HTTP/1.1\r\nConnection: close\r\nContent-Length: 1\r\n\r\n
in x
steps 1 7 1000
ends Closed, 0 taken
out HTTP/1.1 401 Unauthorized\r\nContent-Type: application/json\r\nContent-Length: 37\r\nConnection: close\r\n\r\n
out {"text":"Token is required","code":2}

row bytes that are no request
in POST /services/collector/event HTTP/1.1\r\n
in Authorization: Splunk 11111111-2222-3333-4444-555555555555\r\nContent-Length: 11\r\n\r\n
in {"event":1}
in ?\r\n\r\n
steps 1 7 1000
ends Fault { at: 134, why: BadHead }, 1 taken
out HTTP/1.1 200 OK\r\nContent-Type: application/json\r\nContent-Length: 27\r\n\r\n
out {"text":"Success","code":0}
out HTTP/1.1 400 Bad Request\r\nContent-Type: application/json\r\nContent-Length: 39\r\nConnection: close\r\n\r\n
out {"text":"Invalid data format","code":6}
entries 7 0 0 o{"event":1}\n

row a request without its end
in POST /services/collector/event HTTP/1.1\r\n
in Authorization: Splunk 11111111-2222-3333-4444-555555555555\r\nContent-Length: 11\r\n\r\n
in {"event":1}
in POST /services/collector/event HTTP/1.1\r\n
in Authorization: Splunk 11111111-2222-3333-4444-555555555555\r\nContent-Length: 11\r\n\r\n
in {"event":1
steps 1 7 1000
ends Truncated { at: 134 }, 1 taken
out HTTP/1.1 200 OK\r\nContent-Type: application/json\r\nContent-Length: 27\r\n\r\n
out {"text":"Success","code":0}
entries 7 0 0 o{"event":1}\n

row more than the spool's one slot takes
in POST /services/collector/event HTTP/1.1\r\n
in Authorization: Splunk 11111111-2222-3333-4444-555555555555\r\nContent-Length: 5012\r\n\r\n
in {"event":"\{5000}"}
steps 1000
ends TooLarge { need: 5050, most: 4078 }, 0 taken
out HTTP/1.1 503 Service Unavailable\r\n
out Content-Type: application/json\r\nContent-Length: 34\r\nConnection: close\r\n\r\n
out {"text":"Server is busy","code":9}

row more than the slot takes, with acks
- The same with acks: the id was said, and no id is told after that.
in POST /services/collector/event HTTP/1.1\r\n
in Authorization: Splunk aaaaaaaa-2222-3333-4444-555555555555\r\n
in X-Splunk-Request-Channel: cccccccc-2222-3333-4444-555555555555\r\nContent-Length: 5012\r\n\r\n
in {"event":"\{5000}"}
steps 1000
ends TooLarge { need: 5050, most: 4078 }, 0 taken
out HTTP/1.1 200 OK\r\nContent-Type: application/json\r\nContent-Length: 46\r\n\r\n
out {"text":"Success","code":0,"ackId":4294967296}

row a closing request of more than the slot takes
- A request that closes, of which the events aren't taken: the refusal is the ending, and is said once.
in POST /services/collector/event HTTP/1.1\r\n
in Authorization: Splunk 11111111-2222-3333-4444-555555555555\r\nConnection: close\r\nContent-Length: 5012\r\n\r\n
in {"event":"\{5000}"}
steps 1000
ends TooLarge { need: 5050, most: 4078 }, 0 taken
out HTTP/1.1 503 Service Unavailable\r\n
out Content-Type: application/json\r\nContent-Length: 34\r\nConnection: close\r\n\r\n
out {"text":"Server is busy","code":9}

row a closing request of more than the slot takes, with acks
in POST /services/collector/event HTTP/1.1\r\n
in Authorization: Splunk aaaaaaaa-2222-3333-4444-555555555555\r\n
in X-Splunk-Request-Channel: cccccccc-2222-3333-4444-555555555555\r\nConnection: close\r\n
in Content-Length: 5012\r\n\r\n
in {"event":"\{5000}"}
steps 1000
ends TooLarge { need: 5050, most: 4078 }, 0 taken
out HTTP/1.1 200 OK\r\nContent-Type: application/json\r\nContent-Length: 46\r\nConnection: close\r\n\r\n
out {"text":"Success","code":0,"ackId":4294967296}

row no id is left
- The last id of the run, and a request after it.
in POST /services/collector/event HTTP/1.1\r\n
in Authorization: Splunk aaaaaaaa-2222-3333-4444-555555555555\r\n
in X-Splunk-Request-Channel: cccccccc-2222-3333-4444-555555555555\r\nContent-Length: 11\r\n\r\n
in {"event":1}
in POST /services/collector/event HTTP/1.1\r\n
in Authorization: Splunk aaaaaaaa-2222-3333-4444-555555555555\r\n
in X-Splunk-Request-Channel: dddddddd-2222-3333-4444-555555555555\r\nContent-Length: 11\r\n\r\n
in {"event":2}
steps 1 1000
ids 4294967295
ends NoMore { run: 1 }, 1 taken
out HTTP/1.1 200 OK\r\nContent-Type: application/json\r\nContent-Length: 46\r\n\r\n
out {"text":"Success","code":0,"ackId":8589934591}
out HTTP/1.1 503 Service Unavailable\r\n
out Content-Type: application/json\r\nContent-Length: 34\r\nConnection: close\r\n\r\n
out {"text":"Server is busy","code":9}
entries 7 0 8589934591 o{"event":1}\n

row a read that fails
in POST /services/collector/event HTTP/1.1\r\n
in Authorization: Splunk 11111111-2222-3333-4444-555555555555\r\nContent-Length: 11\r\n\r\n
in {"event":1}
in POST /services/collector/event HTTP/1.1\r\n
in Authorization: Splunk 11111111-2222-3333-4444-555555555555\r\nContent-Length: 11\r\n\r\n
in {"event":1}
steps 134
reads 1
ends ReadFault, 1 taken
out HTTP/1.1 200 OK\r\nContent-Type: application/json\r\nContent-Length: 27\r\n\r\n
out {"text":"Success","code":0}
entries 7 0 0 o{"event":1}\n"#;
