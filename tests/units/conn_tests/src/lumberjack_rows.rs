//! Connections of Lumberjack whose windows are stored. The frames, acknowledgments and places are those of Elastic's protocol
//! document, version 2.

/// What is sent, and what comes of it.
pub(crate) const ROWS: &str = r#"row no bytes
steps 1
ends Ended, 0 taken

row a window of two frames
in 2W\0\0\0\x02
in 2J\0\0\0\x01\0\0\0\x07{"a":1}
in 2J\0\0\0\x02\0\0\0\x02{}
steps 1 7 1000
ends Ended, 2 taken
out 2A\0\0\0\x02
entries 7 0 1 j{"a":1}\n
entries 7 1 2 j{}\n

row windows of one read, where events of RELP would be one group
in 2W\0\0\0\x02
in 2J\0\0\0\x01\0\0\0\x07{"a":1}
in 2J\0\0\0\x02\0\0\0\x02{}
in 2W\0\0\0\x01
in 2J\0\0\0\x01\0\0\0\x02[]
group 1
steps 1 7 100000
ends Ended, 3 taken
out 2A\0\0\0\x02
out 2A\0\0\0\x01
entries 7 0 1 j{"a":1}\n
entries 7 1 2 j{}\n
entries 7 2 1 j[]\n

row a new window cuts the old one
in 2W\0\0\0\x03
in 2J\0\0\0\x01\0\0\0\x02{}
in 2J\0\0\0\x02\0\0\0\x02{}
in 2W\0\0\0\x01
in 2J\0\0\0\x01\0\0\0\x02[]
steps 1 7 1000
ends Ended, 3 taken
out 2A\0\0\0\x02
out 2A\0\0\0\x01
entries 7 0 1 j{}\n
entries 7 1 2 j{}\n
entries 7 2 1 j[]\n

row a window of zero has no effect
in 2W\0\0\0\0
in 2J\0\0\0\x09\0\0\0\x02{}
steps 1 7 1000
ends Ended, 1 taken
out 2A\0\0\0\x09
entries 7 0 9 j{}\n

row a frame outside a window is a window of one
in 2J\0\0\0\x05\0\0\0\x01x
in 2J\0\0\0\x03\0\0\0\x01y
steps 1 7 1000
ends Ended, 2 taken
out 2A\0\0\0\x05
out 2A\0\0\0\x03
entries 7 0 5 jx\n
entries 7 1 3 jy\n

row pairs stay as they stand, doubled keys too
in 2D\0\0\0\x01\0\0\0\x02\0\0\0\x01a\0\0\0\x01x\0\0\0\x01a\0\0\0\x01y
steps 1 7 1000
ends Ended, 1 taken
out 2A\0\0\0\x01
entries 7 0 1 d\0\0\0\x01a\0\0\0\x01x\0\0\0\x01a\0\0\0\x01y\n

row a frame without pairs
in 2D\0\0\0\x01\0\0\0\0
steps 1 7 1000
ends Ended, 1 taken
out 2A\0\0\0\x01
entries 7 0 1 d\n

row the end of the input ends the window
in 2W\0\0\0\x03
in 2J\0\0\0\x08\0\0\0\x02{}
in 2J\0\0\0\x06\0\0\0\x02[]
steps 1 7 1000
ends Ended, 2 taken
out 2A\0\0\0\x06
entries 7 0 8 j{}\n
entries 7 1 6 j[]\n

row the longest frames
- The longest frames: the window is full before a piece is, and takes the rest once they are served.
in 2W\0\0\0\x01
in 2J\0\0\0\x01\0\x02\0\0\{131072}
in 2W\0\0\0\x03
in 2J\0\0\0\x01\0\x02\0\0\{131072}
in 2J\0\0\0\x02\0\0\0\x02{}
in 2J\0\0\0\x03\0\0\0\x02[]
steps 8192
slot 524288
ends Ended, 4 taken
out 2A\0\0\0\x01
out 2A\0\0\0\x03
entries 7 0 1 j\{131072}\n
entries 7 1 1 j\{131072}\n
entries 7 2 2 j{}\n
entries 7 3 3 j[]\n

row batches that end by their bytes
- A batch ends with the frame by which the staged texts have 262,144 bytes; the window goes on.
in 2W\0\0\0\x05
in 2J\0\0\0\x01\0\x02\0\0\{131072}
in 2J\0\0\0\x02\0\x02\0\0\{131072}
in 2J\0\0\0\x03\0\x02\0\0\{131072}
in 2J\0\0\0\x04\0\x02\0\0\{131072}
in 2J\0\0\0\x05\0\x02\0\0\{131072}
steps 8192
slot 1000000
ends Ended, 5 taken
out 2A\0\0\0\x02
out 2A\0\0\0\x04
out 2A\0\0\0\x05
entries 7 0 1 j\{131072}\n
entries 7 1 2 j\{131072}\n
entries 7 2 3 j\{131072}\n
entries 7 3 4 j\{131072}\n
entries 7 4 5 j\{131072}\n"#;
