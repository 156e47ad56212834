//! Connections of the collector whose events are stored. The requests are those of Splunk's HTTP Event Collector, over HTTP/1.1
//! (RFC 9112).

/// A request of one event, and what is said for it.
pub(crate) const ONE: &str = r#"row a request of one event
slot 65536
in POST /services/collector/event HTTP/1.1\r\n
in Authorization: Splunk 11111111-2222-3333-4444-555555555555\r\nContent-Length: 11\r\n\r\n
in {"event":1}
out HTTP/1.1 200 OK\r\nContent-Type: application/json\r\nContent-Length: 27\r\n\r\n
out {"text":"Success","code":0}"#;

/// What is sent, and what comes of it.
pub(crate) const ROWS: &str = r#"row two objects without acks
- Two objects without acks: Success is said once both are stored.
in POST /services/collector/event HTTP/1.1\r\n
in Authorization: Splunk 11111111-2222-3333-4444-555555555555\r\nContent-Length: 33\r\n\r\n
in {"event":"a"}{"event":{"b":1.50}}
steps 1 7 1000
ends Ended, 2 taken
out HTTP/1.1 200 OK\r\nContent-Type: application/json\r\nContent-Length: 27\r\n\r\n
out {"text":"Success","code":0}
entries 7 0 0 o{"event":"a"}\n
entries 7 1 0 o{"event":{"b":1.50}}\n

row requests of one read, where events of RELP would be one group
in POST /services/collector/event HTTP/1.1\r\n
in Authorization: Splunk 11111111-2222-3333-4444-555555555555\r\nContent-Length: 11\r\n\r\n
in {"event":1}
in POST /services/collector/event HTTP/1.1\r\n
in Authorization: Splunk 11111111-2222-3333-4444-555555555555\r\nContent-Length: 11\r\n\r\n
in {"event":2}
group 1
steps 1 7 100000
ends Ended, 2 taken
out HTTP/1.1 200 OK\r\nContent-Type: application/json\r\nContent-Length: 27\r\n\r\n
out {"text":"Success","code":0}
out HTTP/1.1 200 OK\r\nContent-Type: application/json\r\nContent-Length: 27\r\n\r\n
out {"text":"Success","code":0}
entries 7 0 0 o{"event":1}\n
entries 7 1 0 o{"event":2}\n

row raw lines
in POST /services/collector/raw?channel=cccccccc-2222-3333-4444-555555555555&sourcetype=x HTTP/1.1\r\n
in Authorization: Splunk 11111111-2222-3333-4444-555555555555\r\nContent-Length: 4\r\n\r\n
in p\r\nq
steps 1 7 1000
ends Ended, 2 taken
out HTTP/1.1 200 OK\r\nContent-Type: application/json\r\nContent-Length: 27\r\n\r\n
out {"text":"Success","code":0}
entries 7 0 0 wp\n
entries 7 1 0 wq\n

row an id is told true once, to its channel
- With acks: an id, told true once to its channel, and to no other one.
in POST /services/collector/event HTTP/1.1\r\n
in Authorization: Splunk aaaaaaaa-2222-3333-4444-555555555555\r\n
in X-Splunk-Request-Channel: cccccccc-2222-3333-4444-555555555555\r\nContent-Length: 33\r\n\r\n
in {"event":"a"}{"event":{"b":1.50}}
in POST /services/collector/ack HTTP/1.1\r\n
in Authorization: Splunk aaaaaaaa-2222-3333-4444-555555555555\r\n
in X-Splunk-Request-Channel: dddddddd-2222-3333-4444-555555555555\r\nContent-Length: 21\r\n\r\n
in {"acks":[4294967296]}
in POST /services/collector/ack HTTP/1.1\r\n
in Authorization: Splunk aaaaaaaa-2222-3333-4444-555555555555\r\n
in X-Splunk-Request-Channel: cccccccc-2222-3333-4444-555555555555\r\nContent-Length: 43\r\n\r\n
in {"acks":[4294967297,4294967296,4294967297]}
in POST /services/collector/ack HTTP/1.1\r\n
in Authorization: Splunk aaaaaaaa-2222-3333-4444-555555555555\r\n
in X-Splunk-Request-Channel: cccccccc-2222-3333-4444-555555555555\r\nContent-Length: 21\r\n\r\n
in {"acks":[4294967296]}
steps 1 7 1000
ends Ended, 2 taken
out HTTP/1.1 200 OK\r\nContent-Type: application/json\r\nContent-Length: 46\r\n\r\n
out {"text":"Success","code":0,"ackId":4294967296}
out HTTP/1.1 200 OK\r\nContent-Type: application/json\r\nContent-Length: 29\r\n\r\n
out {"acks":{"4294967296":false}}
out HTTP/1.1 200 OK\r\nContent-Type: application/json\r\nContent-Length: 47\r\n\r\n
out {"acks":{"4294967297":false,"4294967296":true}}
out HTTP/1.1 200 OK\r\nContent-Type: application/json\r\nContent-Length: 29\r\n\r\n
out {"acks":{"4294967296":false}}
entries 7 0 4294967296 o{"event":"a"}\n
entries 7 1 4294967296 o{"event":{"b":1.50}}\n

row each request has an id of its own
- Each request has an id of its own, in order; no entry has another one's.
in POST /services/collector/event HTTP/1.1\r\n
in Authorization: Splunk aaaaaaaa-2222-3333-4444-555555555555\r\n
in X-Splunk-Request-Channel: cccccccc-2222-3333-4444-555555555555\r\nContent-Length: 11\r\n\r\n
in {"event":1}
in POST /services/collector/event HTTP/1.1\r\n
in Authorization: Splunk aaaaaaaa-2222-3333-4444-555555555555\r\n
in X-Splunk-Request-Channel: dddddddd-2222-3333-4444-555555555555\r\nContent-Length: 11\r\n\r\n
in {"event":2}
in POST /services/collector/ack HTTP/1.1\r\n
in Authorization: Splunk aaaaaaaa-2222-3333-4444-555555555555\r\n
in X-Splunk-Request-Channel: dddddddd-2222-3333-4444-555555555555\r\nContent-Length: 32\r\n\r\n
in {"acks":[4294967296,4294967297]}
steps 1 7 1000
ends Ended, 2 taken
out HTTP/1.1 200 OK\r\nContent-Type: application/json\r\nContent-Length: 46\r\n\r\n
out {"text":"Success","code":0,"ackId":4294967296}
out HTTP/1.1 200 OK\r\nContent-Type: application/json\r\nContent-Length: 46\r\n\r\n
out {"text":"Success","code":0,"ackId":4294967297}
out HTTP/1.1 200 OK\r\nContent-Type: application/json\r\nContent-Length: 47\r\n\r\n
out {"acks":{"4294967296":false,"4294967297":true}}
entries 7 0 4294967296 o{"event":1}\n
entries 7 1 4294967297 o{"event":2}\n"#;
