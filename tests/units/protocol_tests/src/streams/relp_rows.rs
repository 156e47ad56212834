//! Streams of RELP, and what they are. The frames, places and faults are those of a reading apart
//! from this program, by regular expressions over the stream's fronts.
use relp_frame::{RelpFault, RelpWhy};

/// A stream, and what is read of it.
pub struct Row {
    pub text: &'static [u8],
    /// The whole frames in their shortest spelling.
    pub frames: &'static [u8],
    /// The offset of the unfinished frame, or of the one that has the fault.
    pub rest_at: Option<u64>,
    /// How many bytes a window holds once the frames are given.
    pub held: usize,
    pub fault: Option<RelpFault>,
}

/// What rsyslog 8.2302 (omrelp over librelp 1.11) sends: its open, its first event and its close.
/// Its offers end without an LF.
const OMRELP: &[u8] = b"1 open 86 relp_version=0\n\
    relp_software=librelp,1.11.0,http://librelp.adiscon.com\n\
    commands=syslog\n\
    2 syslog 146 <133>2026-11-26T20:57:46.865810+00:00 vm app: event 000000 xxxxxxxx\
    xxxxxxxxxxxxxxxxxxxxxxxxxxxxxxxxxxxxxxxxxxxxxxxxxxxxxxxxxxxxxxxxxxxxxxxxxxxxxxx\n\
    102 close 0\n";

/// What rsyslog 8.2302 (imrelp) answers to a session of eleven frames and a close.
const IMRELP: &[u8] = b"1 rsp 93 200 OK\n\
    relp_version=0\n\
    relp_software=librelp,1.11.0,http://librelp.adiscon.com\n\
    commands=syslog\n\
    2 rsp 6 200 OK\n\
    3 rsp 6 200 OK\n\
    4 rsp 6 200 OK\n\
    5 rsp 6 200 OK\n\
    6 rsp 6 200 OK\n\
    7 rsp 6 200 OK\n\
    8 rsp 6 200 OK\n\
    9 rsp 6 200 OK\n\
    10 rsp 6 200 OK\n\
    11 rsp 6 200 OK\n\
    12 rsp 0\n\
    0 serverclose 0\n";

/// What it answers to a jump in the transaction numbers.
const IMRELP_JUMP: &[u8] = b"1 rsp 93 200 OK\n\
    relp_version=0\n\
    relp_software=librelp,1.11.0,http://librelp.adiscon.com\n\
    commands=syslog\n\
    0 serverclose 0\n";

/// Frames and faults of each kind, and what real clients write.
pub const ROWS: &[Row] = &[
    // Whole frames, with leading zeros and either ending.
    Row {
        text: b"",
        frames: b"",
        rest_at: None,
        held: 0,
        fault: None,
    },
    Row {
        text: b"3 close 0\n",
        frames: b"3 close 0\n",
        rest_at: None,
        held: 0,
        fault: None,
    },
    Row {
        text: b"2 syslog 5 hello\n3 close 0\n",
        frames: b"2 syslog 5 hello\n3 close 0\n",
        rest_at: None,
        held: 0,
        fault: None,
    },
    Row {
        text: b"002 syslog 0 \n",
        frames: b"2 syslog 0\n",
        rest_at: None,
        held: 0,
        fault: None,
    },
    Row {
        text: b"2 syslog 0005 hello\n",
        frames: b"2 syslog 5 hello\n",
        rest_at: None,
        held: 0,
        fault: None,
    },
    Row {
        text: b"1 a 3 \n \n\n",
        frames: b"1 a 3 \n \n\n",
        rest_at: None,
        held: 0,
        fault: None,
    },
    Row {
        text: b"999999999 a 0\n",
        frames: b"999999999 a 0\n",
        rest_at: None,
        held: 0,
        fault: None,
    },
    Row {
        text: b"1 abcdefghijklmnopqrstuvwxyzABCDEF 0\n",
        frames: b"1 abcdefghijklmnopqrstuvwxyzABCDEF 0\n",
        rest_at: None,
        held: 0,
        fault: None,
    },
    // An unfinished frame.
    Row {
        text: b"2 syslog 5 hel",
        frames: b"",
        rest_at: Some(0),
        held: 14,
        fault: None,
    },
    Row {
        text: b"2 syslog 131072 ",
        frames: b"",
        rest_at: Some(0),
        held: 16,
        fault: None,
    },
    Row {
        text: b"3 close 0\n2 sys",
        frames: b"3 close 0\n",
        rest_at: Some(10),
        held: 5,
        fault: None,
    },
    Row {
        text: b"2 syslog 5 hello\n3 close 0\n2 sys",
        frames: b"2 syslog 5 hello\n3 close 0\n",
        rest_at: Some(27),
        held: 5,
        fault: None,
    },
    // A digit is due, or is the tenth.
    Row {
        text: b"x",
        frames: b"",
        rest_at: Some(0),
        held: 0,
        fault: Some(RelpFault {
            at: 0,
            why: RelpWhy::Digits,
        }),
    },
    Row {
        text: b"3 close 0\nX4 close 0\n",
        frames: b"3 close 0\n",
        rest_at: Some(10),
        held: 0,
        fault: Some(RelpFault {
            at: 10,
            why: RelpWhy::Digits,
        }),
    },
    Row {
        text: b"1 a x",
        frames: b"",
        rest_at: Some(0),
        held: 4,
        fault: Some(RelpFault {
            at: 4,
            why: RelpWhy::Digits,
        }),
    },
    Row {
        text: b"1 a \n",
        frames: b"",
        rest_at: Some(0),
        held: 4,
        fault: Some(RelpFault {
            at: 4,
            why: RelpWhy::Digits,
        }),
    },
    Row {
        text: b"1234567890",
        frames: b"",
        rest_at: Some(0),
        held: 9,
        fault: Some(RelpFault {
            at: 9,
            why: RelpWhy::Digits,
        }),
    },
    Row {
        text: b"1 a 0000000000",
        frames: b"",
        rest_at: Some(0),
        held: 13,
        fault: Some(RelpFault {
            at: 13,
            why: RelpWhy::Digits,
        }),
    },
    // A number may end, and something else comes.
    Row {
        text: b"1x",
        frames: b"",
        rest_at: Some(0),
        held: 1,
        fault: Some(RelpFault {
            at: 1,
            why: RelpWhy::Space,
        }),
    },
    Row {
        text: b"123456789x",
        frames: b"",
        rest_at: Some(0),
        held: 9,
        fault: Some(RelpFault {
            at: 9,
            why: RelpWhy::Space,
        }),
    },
    Row {
        text: b"1 a 5\n",
        frames: b"",
        rest_at: Some(0),
        held: 5,
        fault: Some(RelpFault {
            at: 5,
            why: RelpWhy::Space,
        }),
    },
    Row {
        text: b"1 a 0x",
        frames: b"",
        rest_at: Some(0),
        held: 5,
        fault: Some(RelpFault {
            at: 5,
            why: RelpWhy::Space,
        }),
    },
    // A letter is due, something else comes, or it is the thirty-third.
    Row {
        text: b"1  ",
        frames: b"",
        rest_at: Some(0),
        held: 2,
        fault: Some(RelpFault {
            at: 2,
            why: RelpWhy::Command,
        }),
    },
    Row {
        text: b"1 a-",
        frames: b"",
        rest_at: Some(0),
        held: 3,
        fault: Some(RelpFault {
            at: 3,
            why: RelpWhy::Command,
        }),
    },
    Row {
        text: b"1 abcdefghijklmnopqrstuvwxyzABCDEFG",
        frames: b"",
        rest_at: Some(0),
        held: 34,
        fault: Some(RelpFault {
            at: 34,
            why: RelpWhy::Command,
        }),
    },
    // The length passes its limit.
    Row {
        text: b"2 syslog 131073",
        frames: b"",
        rest_at: Some(0),
        held: 14,
        fault: Some(RelpFault {
            at: 14,
            why: RelpWhy::TooLong,
        }),
    },
    Row {
        text: b"1 a 999999",
        frames: b"",
        rest_at: Some(0),
        held: 9,
        fault: Some(RelpFault {
            at: 9,
            why: RelpWhy::TooLong,
        }),
    },
    // The data ends, and something else than LF comes.
    Row {
        text: b"2 syslog 5 helloX",
        frames: b"",
        rest_at: Some(0),
        held: 16,
        fault: Some(RelpFault {
            at: 16,
            why: RelpWhy::Trailer,
        }),
    },
    Row {
        text: b"1 a 0 x",
        frames: b"",
        rest_at: Some(0),
        held: 6,
        fault: Some(RelpFault {
            at: 6,
            why: RelpWhy::Trailer,
        }),
    },
    Row {
        text: b"1 a 0\n1 a 2 \n\n\r\n",
        frames: b"1 a 0\n",
        rest_at: Some(6),
        held: 8,
        fault: Some(RelpFault {
            at: 14,
            why: RelpWhy::Trailer,
        }),
    },
    Row {
        text: b"1 a 0\n2 b 0\n3 c 1 xy4 d 0\n",
        frames: b"1 a 0\n2 b 0\n",
        rest_at: Some(12),
        held: 7,
        fault: Some(RelpFault {
            at: 19,
            why: RelpWhy::Trailer,
        }),
    },
    // What real clients write.
    Row {
        text: OMRELP,
        frames: OMRELP,
        rest_at: None,
        held: 0,
        fault: None,
    },
    Row {
        text: IMRELP,
        frames: IMRELP,
        rest_at: None,
        held: 0,
        fault: None,
    },
    Row {
        text: IMRELP_JUMP,
        frames: IMRELP_JUMP,
        rest_at: None,
        held: 0,
        fault: None,
    },
];
