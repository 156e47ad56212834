//! Connections of the collector that end at a reply that isn't written.

/// What is sent, and what comes of it.
pub(crate) const UNSAID: &str = r#"row a reply that isn't written, without acks
- A reply that isn't written: its events stay, without acks.
in POST /services/collector/event HTTP/1.1\r\n
in Authorization: Splunk 11111111-2222-3333-4444-555555555555\r\nContent-Length: 11\r\n\r\n
in {"event":1}
in POST /services/collector/event HTTP/1.1\r\n
in Authorization: Splunk 11111111-2222-3333-4444-555555555555\r\nContent-Length: 11\r\n\r\n
in {"event":1}
steps 1000
writes 1
ends WriteFault, 2 taken
out HTTP/1.1 200 OK\r\nContent-Type: application/json\r\nContent-Length: 27\r\n\r\n
out {"text":"Success","code":0}
entries 7 0 0 o{"event":1}\n
entries 7 1 0 o{"event":1}\n

row a reply that isn't written, with acks
- With acks they aren't taken.
in POST /services/collector/event HTTP/1.1\r\n
in Authorization: Splunk aaaaaaaa-2222-3333-4444-555555555555\r\n
in X-Splunk-Request-Channel: cccccccc-2222-3333-4444-555555555555\r\nContent-Length: 11\r\n\r\n
in {"event":1}
in POST /services/collector/event HTTP/1.1\r\n
in Authorization: Splunk aaaaaaaa-2222-3333-4444-555555555555\r\n
in X-Splunk-Request-Channel: cccccccc-2222-3333-4444-555555555555\r\nContent-Length: 11\r\n\r\n
in {"event":1}
steps 1000
writes 1
ends WriteFault, 1 taken
out HTTP/1.1 200 OK\r\nContent-Type: application/json\r\nContent-Length: 46\r\n\r\n
out {"text":"Success","code":0,"ackId":4294967296}
entries 7 0 4294967296 o{"event":1}\n

row an answer to a query isn't written
- The answer to a query isn't written.
in POST /services/collector/event HTTP/1.1\r\n
in Authorization: Splunk aaaaaaaa-2222-3333-4444-555555555555\r\n
in X-Splunk-Request-Channel: cccccccc-2222-3333-4444-555555555555\r\nContent-Length: 11\r\n\r\n
in {"event":1}
in POST /services/collector/ack HTTP/1.1\r\n
in Authorization: Splunk aaaaaaaa-2222-3333-4444-555555555555\r\n
in X-Splunk-Request-Channel: cccccccc-2222-3333-4444-555555555555\r\nContent-Length: 21\r\n\r\n
in {"acks":[4294967296]}
in POST /services/collector/event HTTP/1.1\r\n
in Authorization: Splunk 11111111-2222-3333-4444-555555555555\r\nContent-Length: 11\r\n\r\n
in {"event":1}
steps 1 1000
writes 1
ends WriteFault, 1 taken
out HTTP/1.1 200 OK\r\nContent-Type: application/json\r\nContent-Length: 46\r\n\r\n
out {"text":"Success","code":0,"ackId":4294967296}
entries 7 0 4294967296 o{"event":1}\n

row leave to send a body isn't written
- The leave to send a body isn't written: nothing is done for the request, though its body came.
in POST /services/collector/event HTTP/1.1\r\n
in Authorization: Splunk 11111111-2222-3333-4444-555555555555\r\nExpect: 100-continue\r\nContent-Length: 11\r\n\r\n
in {"event":1}
steps 1 1000
writes 0
ends WriteFault, 0 taken

row 503 isn't written
- The last reply isn't written, after a group that no slot takes, a failed call of the disk and bytes that are no request: that
- is the ending in place of them. The opening makes ten calls of the disk.
in POST /services/collector/event HTTP/1.1\r\n
in Authorization: Splunk 11111111-2222-3333-4444-555555555555\r\nContent-Length: 5012\r\n\r\n
in {"event":"\{5000}"}
steps 1000
writes 0
ends WriteFault, 0 taken

row 500 isn't written
in POST /services/collector/event HTTP/1.1\r\n
in Authorization: Splunk 11111111-2222-3333-4444-555555555555\r\nContent-Length: 11\r\n\r\n
in {"event":1}
steps 1 1000
disk 10
writes 0
ends WriteFault, 0 taken

row 400 isn't written
in POST /services/collector/event HTTP/1.1\r\n
in Authorization: Splunk 11111111-2222-3333-4444-555555555555\r\nContent-Length: 11\r\n\r\n
in {"event":1}
in ?\r\n\r\n
steps 1 1000
writes 1
ends WriteFault, 1 taken
out HTTP/1.1 200 OK\r\nContent-Type: application/json\r\nContent-Length: 27\r\n\r\n
out {"text":"Success","code":0}
entries 7 0 0 o{"event":1}\n"#;
