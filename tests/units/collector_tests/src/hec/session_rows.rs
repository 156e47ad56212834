//! Requests, and what is done for them. A row has a name, a method and a target, letters of fields, an Authorization that has no
//! letter, and the body, with a bar between them.

/// Requests for events, and for other paths (RFC 9112, section 3).
pub const EVENTS_AND_PATHS: &str = r#"
objects without acks|POST /services/collector/event|P||{"event":"a"}{"event":{"b":1.50}} => store o[{"event":"a"}] o[{"event":{"b":1.50}}]
the short path|POST /services/collector|P||{"event":1} => store o[{"event":1}]
the path with a version and a query|POST /services/collector/event/1.0?a=b|P||{"event":1} => store o[{"event":1}]
lines|POST /services/collector/raw|P||p\r\n\nq => store r[p] r[q]
lines on a channel|POST /services/collector/raw/1.0|AC||p\r\n\nq => say r[p] r[q]
an object on a channel|POST /services/collector/event|AC||{"event":"a"} => say o[{"event":"a"}]
a query, each id once|POST /services/collector/ack|AC||{"acks":[4294967296,1,4294967296]} => ask 4294967296 1
another path|POST /x|P|| => 404 404
a path that goes on|POST /services/collector/|P|| => 404 404
a target in absolute form|GET http://h/services/collector/health||| => 404 404
GET of events|GET /services/collector|P|| => 405 405
HEAD of lines|HEAD /services/collector/raw|P|| => 405 405
a method in small letters|post /services/collector/ack|AC|| => 405 405
POST of health|POST /services/collector/health|P|| => 405 405
health|GET /services/collector/health||| => 200 17
health with a version, a query and a coding|GET /services/collector/health/1.0?token=x|G|| => 200 17"#;

/// Requests with one Authorization or another (RFC 9110, section 11.6.2).
pub const AUTHORIZATIONS: &str = r#"
none|POST /services/collector||| => 401 2
none, and another name in the query|POST /services/collector?Token=x|C|| => 401 2
none, and a token in the query|POST /services/collector?token=11111111-2222-3333-4444-555555555555||| => 400 16
none, and a token spelt with an escape|POST /services/collector?a=1&to%6ben||| => 400 16
a token in the query too|POST /services/collector?token=x|P|| => 400 5
another scheme|POST /services/collector||Basic x| => 401 3
a scheme alone, before a second field|POST /services/collector|T|Splunk| => 401 3
two spaces|POST /services/collector||Splunk  11111111-2222-3333-4444-555555555555| => 403 4
no GUID|POST /services/collector||Splunk x| => 403 4
another GUID|POST /services/collector||Splunk cccccccc-2222-3333-4444-555555555555| => 403 4
capitals, and a GUID without hyphens|POST /services/collector||SPLUNK 11111111222233334444555555555555| => 400 5
small letters, and a URN|POST /services/collector||splunk URN:uuid:11111111-2222-3333-4444-555555555555| => 400 5
a GUID in braces|POST /services/collector|C|Splunk {AAAAAAAA-2222-3333-4444-555555555555}| => 400 5"#;

/// Requests that come to the later checks: channels, codings and bodies.
pub const CHANNELS_AND_BODIES: &str = r#"
a query by a token without acks|POST /services/collector/ack|PC||{"acks":[1]} => 400 14
a query by a token without acks, and a coding|POST /services/collector/ack|PG|| => 400 14
no channel|POST /services/collector|A|| => 400 10
no channel, and a coding|POST /services/collector/raw|AG||p => 400 10
an empty channel in the query|POST /services/collector/ack?channel=|A|| => 400 11
a channel that is no GUID|POST /services/collector|AZ|| => 400 11
the first field of two|POST /services/collector/raw?channel=cccccccc-2222-3333-4444-555555555555|AZC||p => 400 11
the field before the query|POST /services/collector/raw?channel=zz|AC||p => say r[p]
the first channel of the query|POST /services/collector/raw?a&channel=%63ccccccc222233334444555555555555&channel=zz|A||p => say r[p]
no channel is needed without acks|POST /services/collector/raw?channel=zz|PZ||p => store r[p]
another coding|POST /services/collector/raw|PG||p => 400 6
the first coding of two|POST /services/collector/raw|PIG||p => store r[p]
a body of white space|POST /services/collector|P||\x20 => 400 5
a body that is no object|POST /services/collector|P||[{"event":"a"}] => 400 6 0
a second object without an event|POST /services/collector|P||{"event":"a"} {"evnt":1} => 400 12 1
a blank event|POST /services/collector|AC||{"event":""} => 400 13 0
a body without lines|POST /services/collector/raw|P||\n => 400 5
a query that is none|POST /services/collector/ack|AC||{"acks":[-1]} => 400 6"#;

/// Requests to a receiver with one token for both.
pub const ALIKE: &str = r#"
one token for both uses acks|POST /services/collector/raw|PC||p => say r[p]
one token for both needs a channel|POST /services/collector/raw|P||p => 400 10"#;

/// Requests to a receiver with no tokens.
pub const NO_TOKENS: &str = r#"
a receiver without tokens|POST /services/collector/raw|PC||p => 403 4"#;

/// Requests to a receiver with a token and a list.
pub const LISTED: &str = r#"
listed without acks|POST /services/collector/raw||Splunk 22222222-2222-3333-4444-555555555555|p => store r[p]
no acks for it|POST /services/collector/ack|C|Splunk 22222222-2222-3333-4444-555555555555|{"acks":[0]} => 400 14
listed with acks|POST /services/collector/raw|C|Splunk bbbbbbbb-2222-3333-4444-555555555555|p => say r[p]
it needs a channel|POST /services/collector/raw||Splunk bbbbbbbb-2222-3333-4444-555555555555|p => 400 10
acks for it|POST /services/collector/ack|C|Splunk bbbbbbbb-2222-3333-4444-555555555555|{"acks":[0]} => ask 0
listed twice, with acks at last|POST /services/collector/raw|C|Splunk 33333333-2222-3333-4444-555555555555|p => say r[p]
listed twice, with acks at first|POST /services/collector/raw|C|Splunk 55555555-2222-3333-4444-555555555555|p => say r[p]
the token, which is listed with acks|POST /services/collector/raw|PC||p => say r[p]
not listed|POST /services/collector/raw|C|Splunk 44444444-2222-3333-4444-555555555555|p => 403 4"#;
