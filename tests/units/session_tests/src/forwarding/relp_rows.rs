//! Sessions of RELP. The frames and answers are those of rsyslog's RELP specification, version 0.

/// What the peer sends, and what comes of it.
pub(crate) const ROWS: &str = "row one entry, stored and closed
- The answer to the close isn't waited for.
count 1
line 1 rsp 6 200 OK
line 2 rsp 6 200 OK
ends Drained
open
entries 1
close 3

row an empty spool
- Nothing is written, and nothing read.
count 0
line 1 rsp 6 200 OK
ends Drained

row the peer says nothing
count 1
ends PeerClosed
open
stay 0

row an entry is refused
count 2
line 1 rsp 6 200 OK
line 2 rsp 9 500 error
ends Refused { unit: 2, code: 500 }
open
entries 2
stay 0 1

row the open is refused
count 1
line 1 rsp 9 500 error
ends Refused { unit: 1, code: 500 }
open
stay 0

row the hint that the peer closes
- It comes after one entry of three; what follows it isn't looked at.
count 3
line 1 rsp 6 200 OK
line 2 rsp 6 200 OK
line 0 serverclose 0
line 3 rsp 6 200 OK
ends PeerClosed
open
entries 3
stay 1 2

row a reply with no code
count 2
line 1 rsp 6 200 OK
line 2 rsp 2 ok
ends PeerFault { at: 15, why: Reply }
open
entries 2
stay 0 1

row bytes that are no frame, after an acknowledged entry
count 2
line 1 rsp 6 200 OK
line 2 rsp 6 200 OK
bytes ?
ends PeerFault { at: 30, why: Digits }
open
entries 2
stay 1

row the second of 130 entries alone is acknowledged
count 130
line 1 rsp 6 200 OK
line 3 rsp 6 200 OK
ends PeerClosed
open
entries 130
stay 0 2..130

row answers in another order
- The last one completes them.
count 3
line 1 rsp 6 200 OK
line 4 rsp 6 200 OK
line 3 rsp 6 200 OK
line 2 rsp 6 200 OK
ends Drained
open
entries 3
close 5";

/// The peer's bytes end anywhere: just the entries whose answers came whole are gone.
pub(crate) const CUTS: &str = "row the bytes end before the open is answered
count 2
line 1 rsp 6 200 OK
line 2 rsp 6 200 OK
line 3 rsp 6 200 OK
steps 1000
cuts 0..15
ends PeerClosed
open
stay 0 1

row the bytes end before the first entry is answered
count 2
line 1 rsp 6 200 OK
line 2 rsp 6 200 OK
line 3 rsp 6 200 OK
steps 1000
cuts 15..30
ends PeerClosed
open
entries 2
stay 0 1

row the bytes end before the second entry is answered
count 2
line 1 rsp 6 200 OK
line 2 rsp 6 200 OK
line 3 rsp 6 200 OK
steps 1000
cuts 30..45
ends PeerClosed
open
entries 2
stay 1

row the bytes end after both answers
count 2
line 1 rsp 6 200 OK
line 2 rsp 6 200 OK
line 3 rsp 6 200 OK
steps 1000
cuts 45
ends Drained
open
entries 2
close 4";

/// A read or a write fails: what the answers acknowledge that were read before is marked.
pub(crate) const FAULTS: &str = "row the read of the open's answer fails
count 2
line 1 rsp 6 200 OK
line 2 rsp 6 200 OK
steps 15
reads 0
ends ReadFault
open
stay 0 1

row the read of the first entry's answer fails
count 2
line 1 rsp 6 200 OK
line 2 rsp 6 200 OK
steps 15
reads 1
ends ReadFault
open
entries 2
stay 0 1

row the read of the second entry's answer fails
count 2
line 1 rsp 6 200 OK
line 2 rsp 6 200 OK
steps 15
reads 2
ends ReadFault
open
entries 2
stay 1

row the write of the open fails
count 1
line 1 rsp 6 200 OK
line 2 rsp 6 200 OK
steps 1000
writes 0
ends WriteFault
stay 0

row the write of the entry fails
count 1
line 1 rsp 6 200 OK
line 2 rsp 6 200 OK
steps 1000
writes 1
ends WriteFault
open
stay 0

row the frames of a batch are one text
- The first 128 entries; the write after it is that of the other two.
count 130
line 1 rsp 6 200 OK
steps 65536
writes 2
ends WriteFault
open
entries 128
stay 0..130

row the write of the close fails
count 1
line 1 rsp 6 200 OK
line 2 rsp 6 200 OK
steps 1000
writes 2
ends WriteFault
open
entries 1";

/// A session over a disk of which a call fails: what stays, and how it ends where that call comes after it.
pub(crate) const DISK: &str = "row RELP
count 2
line 1 rsp 6 200 OK
line 2 rsp 6 200 OK
ends PeerClosed
stay 1";

/// Each second entry is acknowledged, by the answers that stand after the first one.
pub(crate) const SCATTERED: &str = "row each second of 600 entries is acknowledged
count 600
line 1 rsp 6 200 OK
ends PeerClosed
open
entries 600";
