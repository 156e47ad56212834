//! Connections of the collector whose requests are refused, or are given leave to send a body.

/// What is sent, and what comes of it.
pub(crate) const REFUSED: &str = r#"row each code that a request alone brings
- Each code that a request alone brings; the connection goes on after each.
in GET /services/collector/health HTTP/1.1\r\n\r\n
in POST /none HTTP/1.1\r\nAuthorization: Splunk 11111111-2222-3333-4444-555555555555\r\nContent-Length: 1\r\n\r\n
in x
in OPTIONS /services/collector/event/1.0 HTTP/1.1\r\n\r\n
in POST /services/collector/event HTTP/1.1\r\nContent-Length: 1\r\n\r\n
in x
in POST /services/collector/event HTTP/1.1\r\nAuthorization: Basic eDo=\r\nContent-Length: 1\r\n\r\n
in x
in POST /services/collector/event HTTP/1.1\r\n
in Authorization: Splunk 11111111-2222-3333-4444-555555555556\r\nContent-Length: 1\r\n\r\n
in x
in POST /services/collector/event HTTP/1.1\r\n
in Authorization: Splunk 11111111-2222-3333-4444-555555555555\r\nContent-Length: 1\r\n\r\n
in \x20
in POST /services/collector/event HTTP/1.1\r\n
in Authorization: Splunk 11111111-2222-3333-4444-555555555555\r\nContent-Length: 12\r\n\r\n
in {"event":1}?
in POST /services/collector/event HTTP/1.1\r\n
in Authorization: Splunk 11111111-2222-3333-4444-555555555555\r\nContent-Encoding: gzip\r\n
in Content-Length: 11\r\n\r\n
in {"event":1}
in POST /services/collector/event HTTP/1.1\r\n
in Authorization: Splunk aaaaaaaa-2222-3333-4444-555555555555\r\nContent-Length: 11\r\n\r\n
in {"event":1}
in POST /services/collector/event HTTP/1.1\r\n
in Authorization: Splunk aaaaaaaa-2222-3333-4444-555555555555\r\nX-Splunk-Request-Channel: 1\r\n
in Content-Length: 11\r\n\r\n
in {"event":1}
in POST /services/collector/event HTTP/1.1\r\n
in Authorization: Splunk 11111111-2222-3333-4444-555555555555\r\nContent-Length: 18\r\n\r\n
in {"event":1}{"x":2}
in POST /services/collector/event HTTP/1.1\r\n
in Authorization: Splunk 11111111-2222-3333-4444-555555555555\r\nContent-Length: 12\r\n\r\n
in {"event":""}
in POST /services/collector/ack HTTP/1.1\r\n
in Authorization: Splunk 11111111-2222-3333-4444-555555555555\r\n
in X-Splunk-Request-Channel: cccccccc-2222-3333-4444-555555555555\r\nContent-Length: 12\r\n\r\n
in {"acks":[0]}
in POST /services/collector/event?token=11111111-2222-3333-4444-555555555555 HTTP/1.1\r\nContent-Length: 1\r\n\r\n
in x
steps 1 1000
ends Ended, 0 taken
out HTTP/1.1 200 OK\r\nContent-Type: application/json\r\nContent-Length: 35\r\n\r\n
out {"text":"HEC is healthy","code":17}
out HTTP/1.1 404 Not Found\r\nContent-Type: application/json\r\nContent-Length: 31\r\n\r\n
out {"text":"Not found","code":404}
out HTTP/1.1 405 Method Not Allowed\r\nContent-Type: application/json\r\nContent-Length: 40\r\n\r\n
out {"text":"Method not allowed","code":405}
out HTTP/1.1 401 Unauthorized\r\nContent-Type: application/json\r\nContent-Length: 37\r\n\r\n
out {"text":"Token is required","code":2}
out HTTP/1.1 401 Unauthorized\r\nContent-Type: application/json\r\nContent-Length: 41\r\n\r\n
out {"text":"Invalid authorization","code":3}
out HTTP/1.1 403 Forbidden\r\nContent-Type: application/json\r\nContent-Length: 33\r\n\r\n
out {"text":"Invalid token","code":4}
out HTTP/1.1 400 Bad Request\r\nContent-Type: application/json\r\nContent-Length: 27\r\n\r\n
out {"text":"No data","code":5}
out HTTP/1.1 400 Bad Request\r\nContent-Type: application/json\r\nContent-Length: 64\r\n\r\n
out {"text":"Invalid data format","code":6,"invalid-event-number":1}
out HTTP/1.1 400 Bad Request\r\nContent-Type: application/json\r\nContent-Length: 39\r\n\r\n
out {"text":"Invalid data format","code":6}
out HTTP/1.1 400 Bad Request\r\nContent-Type: application/json\r\nContent-Length: 44\r\n\r\n
out {"text":"Data channel is missing","code":10}
out HTTP/1.1 400 Bad Request\r\nContent-Type: application/json\r\nContent-Length: 41\r\n\r\n
out {"text":"Invalid data channel","code":11}
out HTTP/1.1 400 Bad Request\r\nContent-Type: application/json\r\nContent-Length: 69\r\n\r\n
out {"text":"Event field is required","code":12,"invalid-event-number":1}
out HTTP/1.1 400 Bad Request\r\nContent-Type: application/json\r\nContent-Length: 73\r\n\r\n
out {"text":"Event field cannot be blank","code":13,"invalid-event-number":0}
out HTTP/1.1 400 Bad Request\r\nContent-Type: application/json\r\nContent-Length: 36\r\n\r\n
out {"text":"ACK is disabled","code":14}
out HTTP/1.1 400 Bad Request\r\nContent-Type: application/json\r\nContent-Length: 62\r\n\r\n
out {"text":"Query string authorization is not enabled","code":16}

row leave to send a body is given once
- Leave to send a body is given once, before what the request asks for is done.
in POST /services/collector/event HTTP/1.1\r\n
in Authorization: Splunk 11111111-2222-3333-4444-555555555555\r\nExpect: 100-continue\r\nContent-Length: 11\r\n\r\n
in {"event":1}
in POST /services/collector/event HTTP/1.1\r\n
in Authorization: Splunk 11111111-2222-3333-4444-555555555555\r\nContent-Length: 11\r\n\r\n
in {"event":2}
steps 1 7 1000
ends Ended, 2 taken
out HTTP/1.1 100 Continue\r\n\r\n
out HTTP/1.1 200 OK\r\nContent-Type: application/json\r\nContent-Length: 27\r\n\r\n
out {"text":"Success","code":0}
out HTTP/1.1 200 OK\r\nContent-Type: application/json\r\nContent-Length: 27\r\n\r\n
out {"text":"Success","code":0}
entries 7 0 0 o{"event":1}\n
entries 7 1 0 o{"event":2}\n"#;
