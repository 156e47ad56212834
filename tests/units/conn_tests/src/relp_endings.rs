//! Connections of RELP that end where a write or a read fails, or where an event is refused.

/// What is sent, and what comes of it.
pub(crate) const ENDINGS: &str = r#"row an answer isn't written
- The answer is not written: the event stands in the spool.
in 1 open 50 relp_version=0\nrelp_software=a,1,b\ncommands=syslog\n
in 2 syslog 5 first\n
in 3 syslog 6 second\n
steps 1 1000
writes 1
ends WriteFault, 1 taken
out 1 rsp 66 200 OK\nrelp_version=0\nrelp_software=bridge,1,local\ncommands=syslog\n
entries 7 0 2 rfirst\n

row a read fails
in 1 open 50 relp_version=0\nrelp_software=a,1,b\ncommands=syslog\n
in 2 syslog 5 first\n
in 3 syslog 6 second\n
steps 78
reads 1
ends ReadFault, 1 taken
out 1 rsp 66 200 OK\nrelp_version=0\nrelp_software=bridge,1,local\ncommands=syslog\n
out 2 rsp 6 200 OK\n
entries 7 0 2 rfirst\n

row a read of more bytes than one asks for
- Two reads ask for 1,024 bytes and for 8,192, however many would come: the second event ends with one byte more.
in 1 open 50 relp_version=0\nrelp_software=a,1,b\ncommands=syslog\n
in 2 syslog 5 first\n
in 3 syslog 9124 \{9124}\n
steps 100000
slot 65536
reads 2
ends ReadFault, 1 taken
out 1 rsp 66 200 OK\nrelp_version=0\nrelp_software=bridge,1,local\ncommands=syslog\n
out 2 rsp 6 200 OK\n
entries 7 0 2 rfirst\n

row a refused event is not answered
- Of 4,078 bytes 3,038 are taken, and 1,040 are left: a refused event is not answered.
in 1 open 50 relp_version=0\nrelp_software=a,1,b\ncommands=syslog\n
in 2 syslog 3000 \{3000}\n
in 3 syslog 1003 \{1003}\n
in 4 close 0\n
steps 1000
ends Full { need: 1041, room: 1040 }, 1 taken
out 1 rsp 66 200 OK\nrelp_version=0\nrelp_software=bridge,1,local\ncommands=syslog\n
out 2 rsp 6 200 OK\n
out 0 serverclose 0\n
entries 7 0 2 r\{3000}\n

row the hint is not written
in 1 open 50 relp_version=0\nrelp_software=a,1,b\ncommands=syslog\n
in 2 syslog 3000 \{3000}\n
in 3 syslog 1003 \{1003}\n
in 4 close 0\n
steps 1000
writes 2
ends WriteFault, 1 taken
out 1 rsp 66 200 OK\nrelp_version=0\nrelp_software=bridge,1,local\ncommands=syslog\n
out 2 rsp 6 200 OK\n
entries 7 0 2 r\{3000}\n

row an exact fit, and a group that no slot takes
in 1 open 50 relp_version=0\nrelp_software=a,1,b\ncommands=syslog\n
in 2 syslog 4040 \{4040}\n
in 3 syslog 4041 \{4041}\n
steps 1000
ends TooLarge { need: 4079, most: 4078 }, 1 taken
out 1 rsp 66 200 OK\nrelp_version=0\nrelp_software=bridge,1,local\ncommands=syslog\n
out 2 rsp 6 200 OK\n
out 0 serverclose 0\n
entries 7 0 2 r\{4040}\n"#;
