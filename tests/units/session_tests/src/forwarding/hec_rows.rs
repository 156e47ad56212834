//! Sessions of Splunk's collector. Requests and replies are laid out by hand from Splunk's pages on the HTTP Event
//! Collector and its indexer acknowledgment.

/// What the collector sends, and what comes of it.
pub(crate) const ROWS: &str = r#"row an empty spool
- Nothing is written, and nothing read.
count 0
polls 2
reply 400 {}
ends Drained

row confirmed without an id
count 1
polls 2
reply 200 {"text":"Success","code":0}
ends Drained
events 1

row asked twice, denied each time
count 1
polls 2
reply 200 {"text":"Success","code":0,"ackId":7}
reply 200 {"acks":{"7":false}}
reply 200 {"acks":{"7":false}}
ends Unconfirmed { asked: 7 }
events 1
query
query
stay 0
pauses 1

row confirmed the second time
count 1
polls 2
reply 200 {"text":"Success","code":0,"ackId":7}
reply 200 {"acks":{"7":false}}
reply 200 {"acks":{"7":true}}
ends Drained
events 1
query
query
pauses 1

row the bytes end while an answer is waited for
count 1
polls 2
reply 200 {"text":"Success","code":0,"ackId":7}
reply 200 {"acks":{"7":false}}
ends PeerClosed
events 1
query
query
stay 0
pauses 1

row two runs of entries, of which the second is refused
count 130
polls 1
reply 200 {"code":0}
reply 503 {"text":"Server is busy","code":9}
ends Refused { unit: 1, code: 9 }
events 128
events 2
stay 128..130

row two runs, each confirmed by its query
count 130
polls 1
reply 200 {"code":0,"ackId":7}
reply 200 {"acks":{"7":true}}
reply 200 {"code":0,"ackId":7}
reply 200 {"acks":{"7":true}}
ends Drained
events 128
query
events 2
query

row the token is refused
count 1
polls 2
reply 403 {"text":"Invalid token","code":4}
ends Refused { unit: 0, code: 4 }
events 1
stay 0

row a query is answered without its id
- The reply that may not come begins after 71 bytes of head and 20 of body.
count 1
polls 2
reply 200 {"code":0,"ackId":7}
reply 200 {"code":0}
ends PeerFault { at: 91, why: Reply }
events 1
query
stay 0

row bytes that are no reply
count 1
polls 2
head hello
ends PeerFault { at: 0, why: BadHead }
events 1
stay 0

row the write of the request fails
- Two runs of entries, of which the first is confirmed by its query the second time, and the other isn't confirmed.
count 130
polls 2
reply 200 {"code":0,"ackId":7}
reply 200 {"acks":{"7":false}}
reply 200 {"acks":{"7":true}}
steps 1000
writes 0
ends WriteFault
stay 0..130

row the write of the query fails
count 130
polls 2
reply 200 {"code":0,"ackId":7}
reply 200 {"acks":{"7":false}}
reply 200 {"acks":{"7":true}}
steps 1000
writes 1
ends WriteFault
events 128
stay 0..130

row the write of the query again fails
count 130
polls 2
reply 200 {"code":0,"ackId":7}
reply 200 {"acks":{"7":false}}
reply 200 {"acks":{"7":true}}
steps 1000
writes 2
ends WriteFault
events 128
query
stay 0..130
pauses 1

row the write of the next request fails
count 130
polls 2
reply 200 {"code":0,"ackId":7}
reply 200 {"acks":{"7":false}}
reply 200 {"acks":{"7":true}}
steps 1000
writes 3
ends WriteFault
events 128
query
query
stay 128..130
pauses 1

row the read of the first reply fails
- Each reply comes whole in one read.
count 130
polls 2
reply 200 {"code":0,"ackId":7}
reply 200 {"acks":{"7":false}}
reply 200 {"acks":{"7":true}}
steps 91
reads 0
ends ReadFault
events 128
stay 0..130

row the read of the query's answer fails
count 130
polls 2
reply 200 {"code":0,"ackId":7}
reply 200 {"acks":{"7":false}}
reply 200 {"acks":{"7":true}}
steps 91
reads 1
ends ReadFault
events 128
query
stay 0..130

row the read of the second answer fails
count 130
polls 2
reply 200 {"code":0,"ackId":7}
reply 200 {"acks":{"7":false}}
reply 200 {"acks":{"7":true}}
steps 91
reads 2
ends ReadFault
events 128
query
query
stay 0..130
pauses 1

row the read of the next request's reply fails
count 130
polls 2
reply 200 {"code":0,"ackId":7}
reply 200 {"acks":{"7":false}}
reply 200 {"acks":{"7":true}}
steps 91
reads 3
ends ReadFault
events 128
query
query
events 2
stay 128..130
pauses 1"#;

/// A session over a disk of which a call fails: what stays, and how it ends where that call comes after it.
pub(crate) const DISK: &str = r#"row the collector
count 130
polls 2
reply 200 {"code":0,"ackId":7}
reply 200 {"acks":{"7":false}}
reply 200 {"acks":{"7":true}}
ends PeerClosed
stay 128..130"#;
