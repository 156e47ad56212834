//! Connections of RELP. The frames, answers and places are those of rsyslog's RELP specification, version 0.

/// What is sent, and what comes of it.
pub(crate) const ROWS: &str = r#"row bytes after a close are dropped
in 1 open 50 relp_version=0\nrelp_software=a,1,b\ncommands=syslog\n
in 2 syslog 5 first\n
in 3 syslog 6 second\n
in 4 close 0\n
in ?!
steps 1 2 61 1000
ends Closed, 2 taken
out 1 rsp 66 200 OK\nrelp_version=0\nrelp_software=bridge,1,local\ncommands=syslog\n
out 2 rsp 6 200 OK\n
out 3 rsp 6 200 OK\n
out 4 rsp 0\n
out 0 serverclose 0\n
entries 7 0 2 rfirst\n
entries 7 1 3 rsecond\n

row a frame after a close
- A frame after a close is neither stored nor answered.
in 1 open 50 relp_version=0\nrelp_software=a,1,b\ncommands=syslog\n
in 2 close 0\n
in 3 syslog 1 a\n
steps 1 1000
ends Closed, 0 taken
out 1 rsp 66 200 OK\nrelp_version=0\nrelp_software=bridge,1,local\ncommands=syslog\n
out 2 rsp 0\n
out 0 serverclose 0\n

row what rsyslog 8.2302 sends
- What rsyslog 8.2302 (omrelp over librelp 1.11) sends: its open, its first event and its close.
- Its offers end without an LF.
in 1 open 86 relp_version=0\nrelp_software=librelp,1.11.0,http://librelp.adiscon.com\ncommands=syslog\n
in 2 syslog 146 <133>2026-11-26T20:57:46.865810+00:00 vm app: event 000000 \{87}\n
in 102 close 0\n
steps 1 1000
ends Closed, 1 taken
out 1 rsp 66 200 OK\nrelp_version=0\nrelp_software=bridge,1,local\ncommands=syslog\n
out 2 rsp 6 200 OK\n
out 102 rsp 0\n
out 0 serverclose 0\n
entries 7 0 2 r<133>2026-11-26T20:57:46.865810+00:00 vm app: event 000000 \{87}\n

row each frame is answered by how far the session is
in 8 syslog 1 a\n
in 9 noop 0\n
in 2 open 14 relp_version=1\n
in 1 open 50 relp_version=0\nrelp_software=a,1,b\ncommands=syslog\n
in 3 open 0\n
in 4 noop 0\n
in 5 syslog 0\n
steps 1 7 1000
ends Ended, 1 taken
out 8 rsp 12 500 not open\n
out 9 rsp 12 500 not open\n
out 2 rsp 28 500 unsupported relp_version\n
out 1 rsp 66 200 OK\nrelp_version=0\nrelp_software=bridge,1,local\ncommands=syslog\n
out 3 rsp 16 500 already open\n
out 4 rsp 19 500 unknown command\n
out 5 rsp 6 200 OK\n
entries 7 0 5 r\n

row no bytes
steps 1
ends Ended, 0 taken

row an open alone
in 1 open 50 relp_version=0\nrelp_software=a,1,b\ncommands=syslog\n
steps 1 61 1000
ends Ended, 0 taken
out 1 rsp 66 200 OK\nrelp_version=0\nrelp_software=bridge,1,local\ncommands=syslog\n

row an event, then the end
in 1 open 50 relp_version=0\nrelp_software=a,1,b\ncommands=syslog\n
in 2 syslog 5 first\n
steps 1 78 1000
ends Ended, 1 taken
out 1 rsp 66 200 OK\nrelp_version=0\nrelp_software=bridge,1,local\ncommands=syslog\n
out 2 rsp 6 200 OK\n
entries 7 0 2 rfirst\n

row an event, then a part of a frame
in 1 open 50 relp_version=0\nrelp_software=a,1,b\ncommands=syslog\n
in 2 syslog 5 first\n
in 3 sys
steps 1 1000
ends Truncated { at: 78 }, 1 taken
out 1 rsp 66 200 OK\nrelp_version=0\nrelp_software=bridge,1,local\ncommands=syslog\n
out 2 rsp 6 200 OK\n
entries 7 0 2 rfirst\n

row the frames before a fault are served
in 1 open 50 relp_version=0\nrelp_software=a,1,b\ncommands=syslog\n
in 2 syslog 5 first\n
in 3 sys-log
steps 1 80 1000
ends Fault { at: 83, why: Command }, 1 taken
out 1 rsp 66 200 OK\nrelp_version=0\nrelp_software=bridge,1,local\ncommands=syslog\n
out 2 rsp 6 200 OK\n
entries 7 0 2 rfirst\n

row a close before a fault
in 1 open 50 relp_version=0\nrelp_software=a,1,b\ncommands=syslog\n
in 2 syslog 5 first\n
in 3 close 0\n
in -
steps 1 1000
ends Closed, 1 taken
out 1 rsp 66 200 OK\nrelp_version=0\nrelp_software=bridge,1,local\ncommands=syslog\n
out 2 rsp 6 200 OK\n
out 3 rsp 0\n
out 0 serverclose 0\n
entries 7 0 2 rfirst\n

row the longest frames
- The longest frames: the window is full before a piece is, and takes the rest once they are served.
in 1 open 50 relp_version=0\nrelp_software=a,1,b\ncommands=syslog\n
in 2 syslog 131072 \{131072}\n
in 3 syslog 131072 \{131072}\n
in 4 syslog 1 a\n
in 5 syslog 1 b\n
steps 8192
slot 524288
ends Ended, 4 taken
out 1 rsp 66 200 OK\nrelp_version=0\nrelp_software=bridge,1,local\ncommands=syslog\n
out 2 rsp 6 200 OK\n
out 3 rsp 6 200 OK\n
out 4 rsp 6 200 OK\n
out 5 rsp 6 200 OK\n
entries 7 0 2 r\{131072}\n
entries 7 1 3 r\{131072}\n
entries 7 2 4 ra\n
entries 7 3 5 rb\n"#;
