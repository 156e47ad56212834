//! How much memory a connection claims.
use crate::harness::claims;
use edge_io::Proto;
use std::alloc::Global;
use std::process::Abort;

// A connection, and how many bytes it claims last, and at most.
type Row = (Proto, &'static str, u64, u64);

// What each takes, what a few bytes more do, and the whole by each protocol. A frame of 20,000 bytes comes in reads of 1,024 and 8,192. A burst
// of 10,025 bytes has the next read ask for more; after a short one the next asks for less again. So it does after a long one where the sender
// is silent since. A body that is refused by its head isn't held, and comes in reads of 8,192, where a run of events is stored as one group
// too.
const ROWS: &[Row] = &[
    (Proto::Relp, r"in 1 open 0\n", 16_384, 16_672),
    (
        Proto::Relp,
        "slot 100000\nin 1 open 0\\n\nin 2 syslog 20000 \\{20000}\\n",
        16_384,
        524_288,
    ),
    (
        Proto::Relp,
        "group 1\nslot 100000\nin 1 open 0\\n\nin 2 syslog 10000 \\{10000}\\n",
        16_384,
        524_288,
    ),
    (
        Proto::Relp,
        "group 1\nslot 100000\nin 1 open 0\\n\nin 2 syslog 60000 \\{60000}\\n",
        524_288,
        524_288,
    ),
    (
        Proto::Relp,
        "silent 1\ngroup 1\nslot 100000\nin 1 open 0\\n\nin 2 syslog 60000 \\{60000}\\n",
        16_384,
        524_288,
    ),
    (
        Proto::Lumberjack,
        "in 2W\\0\\0\\0\\x02\nin 2J\\0\\0\\0\\x01\\0\\0\\0\\x07{\"a\":1}",
        1_310_720,
        1_310_720,
    ),
    (
        Proto::Hec,
        "slot 100000\nin POST /services/collector/event HTTP/1.1\\r\\nContent-Length: 20000\\r\\nAuthorization: Splunk 11111111-2222-3333-4444-555555555555\\r\\n\\r\\n{\"event\":\"\\{19988}\"}",
        16_384,
        8_388_608,
    ),
    (
        Proto::Hec,
        "in POST /services/collector/event HTTP/1.1\\r\\nContent-Length: 100000\\r\\n\\r\\n\\{50000}",
        16_384,
        278_528,
    ),
    (
        Proto::Hec,
        "group 1\nin POST /services/collector/event HTTP/1.1\\r\\nTransfer-Encoding: chunked\\r\\n\\r\\n186A0\\r\\n\\{100000}\\r\\n0\\r\\n\\r\\n",
        16_384,
        278_528,
    ),
];

/// A connection claims little while it is quiet or brings little, and the whole for its protocol while it brings or holds more; and little
/// again once nothing is held and the sender is silent or brings little.
pub(crate) fn memory_is_claimed(rt: &impl Abort, alloc: Global) {
    for (proto, row, last, most) in ROWS {
        let got = claims(rt, alloc, *proto, row);
        assert!(rt; got == (*last, *most), "another claim: {got:?} in {row}");
    }
}
