//! What some frames ask for.

/// Frames that each have the same done for them, in a session that is open or isn't, and what is
/// then done for another frame, `9 noop 0`, which tells how far the session is.
pub struct Row {
    pub opened: bool,
    pub frames: &'static [&'static [u8]],
    pub done: &'static [u8],
    pub then: &'static [u8],
}

/// What is done for `9 noop 0` where the session isn't open, where it is, and where it is closed.
const UNOPENED: &[u8] = b"say 9 rsp 12 500 not open\n";

const OPENED: &[u8] = b"say 9 rsp 19 500 unknown command\n";

const CLOSED: &[u8] = b"nothing\n";

pub const ROWS: &[Row] = &[
    // An `open` is answered by the offers. An offer without a version is accepted, also one without
    // data. The version may stand in any line, and the first one counts. A line that doesn't begin
    // so states none.
    Row {
        opened: false,
        frames: &[
            b"1 open 50 relp_version=0\nrelp_software=a,1,b\ncommands=syslog\n",
            b"1 open 0\n",
            b"1 open 15 commands=syslog\n",
            b"1 open 30 commands=syslog\nrelp_version=0\n",
            b"1 open 29 relp_version=0\nrelp_version=1\n",
            b"1 open 15  relp_version=1\n",
            b"1 open 14 RELP_VERSION=1\n",
            b"1 open 12 relp_version\n",
        ],
        done: b"say 1 rsp 66 200 OK\nrelp_version=0\nrelp_software=bridge,1,local\ncommands=syslog\n",
        then: OPENED,
    },
    Row {
        opened: false,
        frames: &[b"999999999 open 14 relp_version=0\n"],
        done: b"say 999999999 rsp 66 200 OK\nrelp_version=0\nrelp_software=bridge,1,local\ncommands=syslog\n",
        then: OPENED,
    },
    // Any other version is refused.
    Row {
        opened: false,
        frames: &[
            b"1 open 14 relp_version=1\n",
            b"1 open 15 relp_version=00\n",
            b"1 open 15 relp_version=0 \n",
            b"1 open 17 relp_version=0\r\na\n",
            b"1 open 13 relp_version=\n",
            b"1 open 30 commands=syslog\nrelp_version=1\n",
            b"1 open 29 relp_version=1\nrelp_version=0\n",
            b"1 open 15 \nrelp_version=1\n",
        ],
        done: b"say 1 rsp 28 500 unsupported relp_version\n",
        then: UNOPENED,
    },
    // Before the `open` nothing else but `close` is taken. The words are in small letters.
    Row {
        opened: false,
        frames: &[
            b"2 syslog 5 hello\n",
            b"2 syslog 0\n",
            b"2 starttls 0\n",
            b"2 OPEN 14 relp_version=0\n",
            b"2 opens 0\n",
            b"2 Close 0\n",
        ],
        done: b"say 2 rsp 12 500 not open\n",
        then: UNOPENED,
    },
    // While it is open.
    Row {
        opened: true,
        frames: &[b"2 syslog 5 hello\n3 syslog 0\n007 syslog 4 a\n\n \n0 syslog 1 x\n"],
        done: b"store 2 hello\nstore 3 \nstore 7 a\n\n \nstore 0 x\n",
        then: OPENED,
    },
    Row {
        opened: true,
        frames: &[
            b"2 open 14 relp_version=0\n",
            b"2 open 14 relp_version=1\n",
            b"2 open 0\n",
        ],
        done: b"say 2 rsp 16 500 already open\n",
        then: OPENED,
    },
    Row {
        opened: true,
        frames: &[
            b"5 starttls 0\n",
            b"5 Syslog 5 hello\n",
            b"5 OPEN 0\n",
            b"5 Close 0\n",
        ],
        done: b"say 5 rsp 19 500 unknown command\n",
        then: OPENED,
    },
    // A `close` is taken in either state.
    Row {
        opened: false,
        frames: &[b"3 close 0\n", b"3 close 2 x\n\n"],
        done: b"end 3 rsp 0\n0 serverclose 0\n",
        then: CLOSED,
    },
    Row {
        opened: true,
        frames: &[b"999999999 close 0\n", b"999999999 close 2 x\n\n"],
        done: b"end 999999999 rsp 0\n0 serverclose 0\n",
        then: CLOSED,
    },
    // After it nothing is done: no event is stored, no frame is answered, and no session begins.
    Row {
        opened: true,
        frames: &[b"3 close 0\n4 syslog 1 x\n5 foo 0\n6 open 14 relp_version=0\n7 syslog 1 y\n"],
        done: b"end 3 rsp 0\n0 serverclose 0\nnothing\nnothing\nnothing\nnothing\n",
        then: CLOSED,
    },
    Row {
        opened: false,
        frames: &[b"1 close 0\n2 open 14 relp_version=0\n3 syslog 1 x\n4 close 0\n"],
        done: b"end 1 rsp 0\n0 serverclose 0\nnothing\nnothing\nnothing\n",
        then: CLOSED,
    },
    // Whole sessions.
    Row {
        opened: false,
        frames: &[
            b"1 open 50 relp_version=0\nrelp_software=a,1,b\ncommands=syslog\n2 syslog 5 hello\n3 close 0\n",
        ],
        done: b"say 1 rsp 66 200 OK\nrelp_version=0\nrelp_software=bridge,1,local\ncommands=syslog\nstore 2 hello\nend 3 rsp 0\n0 serverclose 0\n",
        then: CLOSED,
    },
    // A frame with a fault, and one that isn't whole, ask for nothing.
    Row {
        opened: false,
        frames: &[
            b"1 open 50 relp_version=0\nrelp_software=a,1,b\ncommands=syslog\n2 syslog 5 helloX",
            b"1 open 50 relp_version=0\nrelp_software=a,1,b\ncommands=syslog\n2 syslog ",
        ],
        done: b"say 1 rsp 66 200 OK\nrelp_version=0\nrelp_software=bridge,1,local\ncommands=syslog\n",
        then: OPENED,
    },
    // Refusals, and the same with a `close` and more after them.
    Row {
        opened: false,
        frames: &[
            b"1 syslog 1 x\n1 open 50 relp_version=0\nrelp_software=a,1,b\ncommands=syslog\n2 foo 0\n3 open 0\n",
        ],
        done: b"say 1 rsp 12 500 not open\nsay 1 rsp 66 200 OK\nrelp_version=0\nrelp_software=bridge,1,local\ncommands=syslog\nsay 2 rsp 19 500 unknown command\nsay 3 rsp 16 500 already open\n",
        then: OPENED,
    },
    Row {
        opened: false,
        frames: &[
            b"1 syslog 1 x\n1 open 50 relp_version=0\nrelp_software=a,1,b\ncommands=syslog\n2 foo 0\n3 close 0\n2 foo 0\n3 open 0\n",
        ],
        done: b"say 1 rsp 12 500 not open\nsay 1 rsp 66 200 OK\nrelp_version=0\nrelp_software=bridge,1,local\ncommands=syslog\nsay 2 rsp 19 500 unknown command\nend 3 rsp 0\n0 serverclose 0\nnothing\nnothing\n",
        then: CLOSED,
    },
    // What rsyslog sends.
    Row {
        opened: false,
        frames: &[
            b"1 open 50 relp_version=0\nrelp_software=a,1,b\ncommands=syslog\n2 syslog 37 <13>Jan  1 00:00:00 host app: started\n",
        ],
        done: b"say 1 rsp 66 200 OK\nrelp_version=0\nrelp_software=bridge,1,local\ncommands=syslog\nstore 2 <13>Jan  1 00:00:00 host app: started\n",
        then: OPENED,
    },
    Row {
        opened: false,
        frames: &[
            b"1 open 50 relp_version=0\nrelp_software=a,1,b\ncommands=syslog\n2 syslog 37 <13>Jan  1 00:00:00 host app: started\n3 close 0\n4 syslog 37 <13>Jan  1 00:00:00 host app: stopped\n",
        ],
        done: b"say 1 rsp 66 200 OK\nrelp_version=0\nrelp_software=bridge,1,local\ncommands=syslog\nstore 2 <13>Jan  1 00:00:00 host app: started\nend 3 rsp 0\n0 serverclose 0\nnothing\n",
        then: CLOSED,
    },
    // From refusals to an `open`, and on to the `close`.
    Row {
        opened: false,
        frames: &[
            b"1 syslog 1 a\n2 open 14 relp_version=9\n3 syslog 1 b\n4 open 14 relp_version=0\n5 syslog 1 c\n6 open 14 relp_version=9\n7 syslog 1 d\n8 close 0\n",
        ],
        done: b"say 1 rsp 12 500 not open\nsay 2 rsp 28 500 unsupported relp_version\nsay 3 rsp 12 500 not open\nsay 4 rsp 66 200 OK\nrelp_version=0\nrelp_software=bridge,1,local\ncommands=syslog\nstore 5 c\nsay 6 rsp 16 500 already open\nstore 7 d\nend 8 rsp 0\n0 serverclose 0\n",
        then: CLOSED,
    },
];
