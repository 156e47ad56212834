//! Connections of RELP whose events are stored as one group where one read brings them.

/// What is sent, and what comes of it.
pub(crate) const RUNS: &str = r#"row events of one read
- Cut anywhere it is the same: then each run has fewer events.
in 1 open 50 relp_version=0\nrelp_software=a,1,b\ncommands=syslog\n
in 2 syslog 5 first\n
in 3 syslog 6 second\n
in 4 syslog 5 third\n
group 1
steps 1 78 100 1000
ends Ended, 3 taken
out 1 rsp 66 200 OK\nrelp_version=0\nrelp_software=bridge,1,local\ncommands=syslog\n
out 2 rsp 6 200 OK\n
out 3 rsp 6 200 OK\n
out 4 rsp 6 200 OK\n
entries 7 0 2 rfirst\n
entries 7 1 3 rsecond\n
entries 7 2 4 rthird\n

row the answers are one text, which isn't written
in 1 open 50 relp_version=0\nrelp_software=a,1,b\ncommands=syslog\n
in 2 syslog 5 first\n
in 3 syslog 6 second\n
group 1
steps 1000
writes 1
ends WriteFault, 2 taken
out 1 rsp 66 200 OK\nrelp_version=0\nrelp_software=bridge,1,local\ncommands=syslog\n
entries 7 0 2 rfirst\n
entries 7 1 3 rsecond\n

row a read of more bytes than one asks for
- Three reads ask for 1,024 bytes, 8,192 and 65,536, however many would come: the second event ends with one byte more.
in 1 open 50 relp_version=0\nrelp_software=a,1,b\ncommands=syslog\n
in 2 syslog 5 first\n
in 3 syslog 74659 \{74659}\n
group 1
steps 100000
slot 131072
reads 3
ends ReadFault, 1 taken
out 1 rsp 66 200 OK\nrelp_version=0\nrelp_software=bridge,1,local\ncommands=syslog\n
out 2 rsp 6 200 OK\n
entries 7 0 2 rfirst\n

row one group has one head
- Of 4,078 bytes the two need 4,070 as one group, and 4,079 as two.
in 1 open 50 relp_version=0\nrelp_software=a,1,b\ncommands=syslog\n
in 2 syslog 2000 \{2000}\n
in 3 syslog 2003 \{2003}\n
group 1
steps 100000
ends Ended, 2 taken
out 1 rsp 66 200 OK\nrelp_version=0\nrelp_software=bridge,1,local\ncommands=syslog\n
out 2 rsp 6 200 OK\n
out 3 rsp 6 200 OK\n
entries 7 0 2 r\{2000}\n
entries 7 1 3 r\{2003}\n

row the first of a run are stored where there is no room for all
in 1 open 50 relp_version=0\nrelp_software=a,1,b\ncommands=syslog\n
in 2 syslog 1000 \{1000}\n
in 3 syslog 1000 \{1000}\n
in 4 syslog 2060 \{2060}\n
in 5 syslog 1 a\n
group 1
steps 100000
ends Full { need: 2098, room: 2011 }, 2 taken
out 1 rsp 66 200 OK\nrelp_version=0\nrelp_software=bridge,1,local\ncommands=syslog\n
out 2 rsp 6 200 OK\n
out 3 rsp 6 200 OK\n
out 0 serverclose 0\n
entries 7 0 2 r\{1000}\n
entries 7 1 3 r\{1000}\n

row frames that store nothing stand in their places
in 1 open 50 relp_version=0\nrelp_software=a,1,b\ncommands=syslog\n
in 2 syslog 5 first\n
in 3 syslog 6 second\n
in 4 foo 0\n
in 5 syslog 5 third\n
in 6 close 0\n
in 7 syslog 1 a\n
group 1
steps 1 100 1000
ends Closed, 3 taken
out 1 rsp 66 200 OK\nrelp_version=0\nrelp_software=bridge,1,local\ncommands=syslog\n
out 2 rsp 6 200 OK\n
out 3 rsp 6 200 OK\n
out 4 rsp 19 500 unknown command\n
out 5 rsp 6 200 OK\n
out 6 rsp 0\n
out 0 serverclose 0\n
entries 7 0 2 rfirst\n
entries 7 1 3 rsecond\n
entries 7 2 5 rthird\n

row a fault after a run
in 1 open 50 relp_version=0\nrelp_software=a,1,b\ncommands=syslog\n
in 2 syslog 5 first\n
in 3 syslog 6 second\n
in ?!
group 1
steps 1 1000
ends Fault { at: 96, why: Digits }, 2 taken
out 1 rsp 66 200 OK\nrelp_version=0\nrelp_software=bridge,1,local\ncommands=syslog\n
out 2 rsp 6 200 OK\n
out 3 rsp 6 200 OK\n
entries 7 0 2 rfirst\n
entries 7 1 3 rsecond\n"#;
