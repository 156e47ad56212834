//! Connections of Lumberjack, and how they end: within a frame, at a fault, where a read or a write fails, and where a batch is
//! refused.

/// What is sent, and what comes of it.
pub(crate) const ENDINGS: &str = r#"row staged, then one byte of a frame
- At an ending what is staged is stored and acknowledged first.
in 2W\0\0\0\x02
in 2J\0\0\0\x01\0\0\0\x02{}
in 2
steps 1 1000
ends Truncated { at: 18 }, 1 taken
out 2A\0\0\0\x01
entries 7 0 1 j{}\n

row staged, then a part of a window frame
in 2W\0\0\0\x02
in 2J\0\0\0\x01\0\0\0\x02{}
in 2W\0\0
steps 1 1000
ends Truncated { at: 18 }, 1 taken
out 2A\0\0\0\x01
entries 7 0 1 j{}\n

row staged, then a compressed frame
in 2W\0\0\0\x02
in 2J\0\0\0\x01\0\0\0\x02{}
in 2C
steps 1 1000
ends Fault { at: 19, why: Compressed }, 1 taken
out 2A\0\0\0\x01
entries 7 0 1 j{}\n

row staged, then another version
in 2W\0\0\0\x02
in 2J\0\0\0\x01\0\0\0\x02{}
in 1W
steps 1 1000
ends Fault { at: 18, why: Version }, 1 taken
out 2A\0\0\0\x01
entries 7 0 1 j{}\n

row staged, then an acknowledgment
in 2W\0\0\0\x02
in 2J\0\0\0\x01\0\0\0\x02{}
in 2A\0\0\0\x01
steps 1 1000
ends Fault { at: 19, why: AckFromWriter }, 1 taken
out 2A\0\0\0\x01
entries 7 0 1 j{}\n

row staged, then a window too large
in 2W\0\0\0\x02
in 2J\0\0\0\x01\0\0\0\x02{}
in 2W\0\x01\0\x01
steps 1 1000
ends Fault { at: 20, why: TooMany }, 1 taken
out 2A\0\0\0\x01
entries 7 0 1 j{}\n

row staged, then a frame too long
in 2W\0\0\0\x02
in 2J\0\0\0\x01\0\0\0\x02{}
in 2J\0\0\0\x02\0\x02\0\x01
steps 1 1000
ends Fault { at: 24, why: TooLong }, 1 taken
out 2A\0\0\0\x01
entries 7 0 1 j{}\n

row what is staged is given up at a failed read
- At a failed read what is staged is given up.
in 2W\0\0\0\x02
in 2J\0\0\0\x01\0\0\0\x02{}
in 2J\0\0\0\x02\0\0\0\x02{}
steps 18
reads 1
ends ReadFault, 0 taken

row what was acknowledged stays at a failed read
in 2W\0\0\0\x02
in 2J\0\0\0\x01\0\0\0\x02{}
in 2J\0\0\0\x02\0\0\0\x02{}
steps 1000
reads 1
ends ReadFault, 2 taken
out 2A\0\0\0\x02
entries 7 0 1 j{}\n
entries 7 1 2 j{}\n

row an acknowledgment isn't written, after a whole window
- The acknowledgment is not written: after a whole window, and at the end of the input.
in 2J\0\0\0\x01\0\0\0\x01x
in 2J\0\0\0\x02\0\0\0\x01y
in 2J\0\0\0\x03\0\0\0\x01z
steps 1000
writes 1
ends WriteFault, 2 taken
out 2A\0\0\0\x01
entries 7 0 1 jx\n
entries 7 1 2 jy\n

row an acknowledgment isn't written, at the end of the input
in 2J\0\0\0\x01\0\0\0\x01x
in 2W\0\0\0\x05
in 2J\0\0\0\x02\0\0\0\x01y
steps 1000
writes 1
ends WriteFault, 2 taken
out 2A\0\0\0\x01
entries 7 0 1 jx\n
entries 7 1 2 jy\n

row a batch is refused at the end of a window
- A refused batch is not acknowledged: at the end of a window, of the input and at a fault.
in 2W\0\0\0\x01
in 2J\0\0\0\x01\0\0\x0b\xb8\{3000}
in 2W\0\0\0\x01
in 2J\0\0\0\x01\0\0\x03\xeb\{1003}
steps 1000
ends Full { need: 1041, room: 1040 }, 1 taken
out 2A\0\0\0\x01
entries 7 0 1 j\{3000}\n

row a batch is refused at the end of the input
in 2W\0\0\0\x01
in 2J\0\0\0\x01\0\0\x0b\xb8\{3000}
in 2W\0\0\0\x02
in 2J\0\0\0\x01\0\0\x03\xeb\{1003}
steps 1000
ends Full { need: 1041, room: 1040 }, 1 taken
out 2A\0\0\0\x01
entries 7 0 1 j\{3000}\n

row a batch is refused at a fault
in 2W\0\0\0\x01
in 2J\0\0\0\x01\0\0\x0b\xb8\{3000}
in 2W\0\0\0\x02
in 2J\0\0\0\x01\0\0\x03\xeb\{1003}
in 2C
steps 1000
ends Full { need: 1041, room: 1040 }, 1 taken
out 2A\0\0\0\x01
entries 7 0 1 j\{3000}\n

row a batch is refused at a frame cut short
in 2W\0\0\0\x01
in 2J\0\0\0\x01\0\0\x0b\xb8\{3000}
in 2W\0\0\0\x02
in 2J\0\0\0\x01\0\0\x03\xeb\{1003}
in 2J\0
steps 1000
ends Full { need: 1041, room: 1040 }, 1 taken
out 2A\0\0\0\x01
entries 7 0 1 j\{3000}\n

row two events are one group, which no slot takes
- Two events are one group, which has to fit whole.
in 2W\0\0\0\x02
in 2J\0\0\0\x01\0\0\x07\xd0\{2000}
in 2J\0\0\0\x02\0\0\x07\xdc\{2012}
steps 1000
ends TooLarge { need: 4079, most: 4078 }, 0 taken

row two events are one group, which fits exactly
in 2W\0\0\0\x02
in 2J\0\0\0\x01\0\0\x07\xd0\{2000}
in 2J\0\0\0\x02\0\0\x07\xdb\{2011}
steps 1000
ends Ended, 2 taken
out 2A\0\0\0\x02
entries 7 0 1 j\{2000}\n
entries 7 1 2 j\{2011}\n"#;
