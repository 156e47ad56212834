//! The lines of loads. Their numbers were worked out from the standards' layouts by another program.
use crate::forwarding::fields::word;
use edge_io::Proto;
use load_run::{load, load_line};
use std::alloc::Global;
use std::process::Abort;

/// Loads by RELP: the number, the count, and the load's line.
pub(crate) const RELP: &str = "5 0 0 events, 80 bytes in, 100 bytes out, 0 confirmed, 0 left
1 2 2 events, 139 bytes in, 130 bytes out, 2 confirmed, 0 left
7 128 128 events, 4151 bytes in, 2172 bytes out, 128 confirmed, 0 left
7 129 129 events, 4184 bytes in, 2189 bytes out, 129 confirmed, 0 left";

/// The same by Lumberjack.
pub(crate) const LUMBERJACK: &str = "5 0 0 events, 0 bytes in, 0 bytes out, 0 confirmed, 0 left
1 2 2 events, 87 bytes in, 6 bytes out, 2 confirmed, 0 left
7 128 128 events, 5333 bytes in, 6 bytes out, 128 confirmed, 0 left
7 129 129 events, 5381 bytes in, 12 bytes out, 129 confirmed, 0 left";

/// The same by the collector's protocol.
pub(crate) const HEC: &str = "5 0 0 events, 0 bytes in, 0 bytes out, 0 confirmed, 0 left
1 2 2 events, 529 bytes in, 196 bytes out, 2 confirmed, 0 left
7 128 128 events, 33999 bytes in, 12544 bytes out, 128 confirmed, 0 left
7 129 129 events, 34265 bytes in, 12642 bytes out, 129 confirmed, 0 left";

/// Each load of these has its line, and an LF.
pub(crate) fn check_lines(rt: &impl Abort, alloc: Global, proto: Proto, rows: &str) {
    assert!(rt; rows.lines().count() == 4);
    for row in rows.lines() {
        let (first, rest) = word(row);
        let (second, wanted) = word(rest);
        let first = first.parse::<u32>().expect(rt, row);
        let second = second.parse::<u32>().expect(rt, row);
        let loaded = load(alloc, proto, first, second.min(100_000)).ok();
        let line = load_line(alloc, &loaded.expect(rt, row)).expect(rt, "memory");
        assert_eq!(rt; line.as_str().strip_suffix('\n'), Some(wanted));
    }
}
