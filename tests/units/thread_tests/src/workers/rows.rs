//! Links that wait at doors: what each gives, and what comes of it.
use edge_io::Proto;

/// The protocol of each door.
pub(crate) const DOORS: [Proto; 4] = [Proto::Relp, Proto::Lumberjack, Proto::Hec, Proto::Relp];

/// The door that finds no memory for the links that are given back.
pub(crate) const STARVED: usize = 3;

/// How many bytes a read brings at most.
pub(crate) const STEP: usize = 80;

/// A link.
pub(crate) struct Link {
    /// The door at which it waits.
    pub(crate) door: usize,
    pub(crate) input: &'static [u8],
    pub(crate) written: &'static [u8],
    pub(crate) status: u8,
    /// How many bytes of the input are left unread.
    pub(crate) left: usize,
    /// The entries that were taken, one after another as `INDEX UNIT TEXT` and LF.
    pub(crate) entries: &'static str,
}

// The input ends behind a frame.
const CUT: Link = Link {
    door: STARVED,
    input: b"1 open 50 relp_version=0\nrelp_software=a,1,b\ncommands=syslog\n2 syslog 5 first\n",
    written: b"1 rsp 66 200 OK\nrelp_version=0\nrelp_software=bridge,1,local\ncommands=syslog\n2 rsp 6 200 OK\n",
    status: 0,
    left: 0,
    entries: "0 2 first\n",
};

/// The links of each door in the order in which they are accepted. What is sent and answered is that of the protocols' standards.
pub(crate) const LINKS: [Link; 7] = [
    Link {
        door: 0,
        input: b"1 open 50 relp_version=0\nrelp_software=a,1,b\ncommands=syslog\n\
            2 syslog 5 first\n3 syslog 6 second\n4 close 0\n",
        written: b"1 rsp 66 200 OK\nrelp_version=0\nrelp_software=bridge,1,local\ncommands=syslog\n\
            2 rsp 6 200 OK\n3 rsp 6 200 OK\n4 rsp 0\n0 serverclose 0\n",
        status: 0,
        left: 0,
        entries: "0 2 first\n1 3 second\n",
    },
    // The input ends inside a frame.
    Link {
        door: 0,
        input: b"1 open 50 relp_version=0\nrelp_software=a,1,b\ncommands=syslog\n\
            2 syslog 5 third\n3 sys",
        written: b"1 rsp 66 200 OK\nrelp_version=0\nrelp_software=bridge,1,local\ncommands=syslog\n\
            2 rsp 6 200 OK\n",
        status: 75,
        left: 0,
        entries: "0 2 third\n",
    },
    // The first read brings the close and nine bytes more, which are dropped. The rest isn't read.
    Link {
        door: 0,
        input: b"1 open 50 relp_version=0\nrelp_software=a,1,b\ncommands=syslog\n\
            2 close 0\nxxxxxxxxxxxxxxxxxxx",
        written: b"1 rsp 66 200 OK\nrelp_version=0\nrelp_software=bridge,1,local\ncommands=syslog\n\
            2 rsp 0\n0 serverclose 0\n",
        status: 0,
        left: 10,
        entries: "",
    },
    Link {
        door: 1,
        input: b"2W\0\0\0\x022J\0\0\0\x01\0\0\0\x07{\"a\":1}2J\0\0\0\x02\0\0\0\x02{}",
        written: b"2A\0\0\0\x02",
        status: 0,
        left: 0,
        entries: "0 1 {\"a\":1}\n1 2 {}\n",
    },
    Link {
        door: 2,
        input: b"POST /services/collector/event HTTP/1.1\r\n\
            Authorization: Splunk 11111111-2222-3333-4444-555555555555\r\nContent-Length: 33\r\n\r\n\
            {\"event\":\"a\"}{\"event\":{\"b\":1.50}}",
        written: b"HTTP/1.1 200 OK\r\nContent-Type: application/json\r\nContent-Length: 27\r\n\r\n\
            {\"text\":\"Success\",\"code\":0}",
        status: 0,
        left: 0,
        entries: "0 0 {\"event\":\"a\"}\n1 0 {\"event\":{\"b\":1.50}}\n",
    },
    CUT,
    CUT,
];

/// A name; the doors at which workers serve; how many links each is to serve at most; the numbers, from 0, of the accepts of door 0
/// that fail; and what comes of it, a line for each worker: how it ends, how many links it has given back, how many its door tells,
/// and how many still wait there; and then how many entries the spool has.
pub(crate) type Case = (
    &'static str,
    &'static [usize],
    u16,
    &'static [u64],
    &'static str,
);

/// How workers end, and what they leave.
pub(crate) const CASES: [Case; 6] = [
    (
        "until the doors are shut",
        &[0, 1, 2],
        1000,
        &[],
        "Shut 3 3 0\nShut 1 1 0\nShut 1 1 0\n7\n",
    ),
    (
        "until the second accept fails",
        &[0, 1, 2],
        1000,
        &[1],
        "AcceptFault 1 1 2\nShut 1 1 0\nShut 1 1 0\n6\n",
    ),
    (
        "until the first accept fails",
        &[0, 1, 2],
        1000,
        &[0],
        "AcceptFault 0 0 3\nShut 1 1 0\nShut 1 1 0\n4\n",
    ),
    (
        "one link each",
        &[0, 1, 2],
        1,
        &[],
        "Enough 1 1 2\nEnough 1 1 0\nEnough 1 1 0\n6\n",
    ),
    (
        "no link",
        &[0, 1, 2],
        0,
        &[],
        "Enough 0 0 3\nEnough 0 0 1\nEnough 0 0 1\n0\n",
    ),
    // The first link is served to its end, and then the worker ends. The second isn't accepted.
    (
        "until no memory is found",
        &[STARVED],
        1000,
        &[],
        "NoMemory 0 1 1\n1\n",
    ),
];
