//! Sessions of Lumberjack, version 2, as Elastic's protocol document has it.

/// What the peer sends, and what comes of it.
pub(crate) const ROWS: &str = "row one entry
count 1
ack 1
ends Drained
window 1

row an empty spool
count 0
ends Drained

row an acknowledgment of more frames than the window has
count 1
ack 2
ends PeerFault { at: 0, why: Reply }
window 1
stay 0

row three frames of five are acknowledged
count 5
ack 3
ends PeerClosed
window 5
stay 3 4

row two windows, of which the first is acknowledged in part
- The second isn't written before the first is acknowledged.
count 130
ack 64
ends PeerClosed
window 128
stay 64..130

row two windows
- Both acknowledgments lie ready before the second window is written, and count all the same.
count 130
ack 128
ack 2
ends Drained
window 128
window 2

row a frame that no reader of events sends
count 1
bytes 2W\0\0\0\x01
ends PeerFault { at: 1, why: Kind }
window 1
stay 0";
