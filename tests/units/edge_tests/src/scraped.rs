//! What a page of numbers says of the run, by a clock and a standard error in memory.
use crate::said::{bound, pair, pass, waits};
use crate::sockets::free_place;
use crate::staged::Staged;
use edge_io::{Door, EventCounts, HeldUp, Monitor, Net, Proto, Sink, SpoolNumbers};
use edge_net::{Reports, TcpMonitor, TcpNet};
use event_form::Talk;
use std::alloc::Global;
use std::io::{self, Write};
use std::net::{Shutdown, TcpStream};
use std::process::Abort;
use std::time::Duration;

type StagedMonitor<'a, 'h> = TcpMonitor<'a, Staged<'h>>;

const SECOND: u64 = 1_000;

// A spool in which the entries from 990 on are pending, but for three of them.
pub(crate) const NUMBERS: SpoolNumbers = SpoolNumbers {
    run: 7,
    end: 1_002,
    cursor: 990,
    known_count: 3,
    room: 500,
    slots: 8,
    free_slots: 2,
    most: 10_000,
    stored: EventCounts {
        relp: 0,
        lumberjack: 0,
        hec: 0,
    },
};

// A session failed at this entry, which the receiver refused by that code if by any.
fn held_up(number: u64, code: Option<u32>) -> HeldUp {
    HeldUp {
        number,
        proto: Proto::Relp,
        len: None,
        code,
    }
}

// The page, by these numbers.
fn page(
    rt: &impl Abort,
    alloc: Global,
    host: &HostRuntime,
    monitor: &mut StagedMonitor<'_, '_>,
    place: &str,
    numbers: &SpoolNumbers,
) -> String {
    let mut stream = TcpStream::connect(host, place).expect(rt, "it listens");
    let sent = stream.write_all(b"GET /metrics HTTP/1.1\r\n\r\n");
    assert!(rt; sent.is_ok() && stream.shutdown(Shutdown::Write).is_ok());
    assert!(rt; monitor.is_asked());
    monitor.tell(numbers);
    io::read_to_string(alloc, stream).expect(rt, "an answer and its end")
}

// That the page has each of these lines.
fn assert_lines(rt: &impl Abort, page: &str, lines: &[&str]) {
    for line in lines {
        assert!(rt; page.lines().any(|one| one == *line), "{line} in {page}");
    }
}

// That nothing was said but this, if anything.
fn assert_said(rt: &impl Abort, staged: &Staged<'_>, line: Option<&str>) {
    let lines = staged.take_lines(rt);
    match (lines.as_slice(), line) {
        ([said], Some(line)) => assert!(rt; said.as_str() == line, "{said}"),
        ([], None) => {}
        _ => panic!(rt; "{lines:?}"),
    }
}

fn a_run_begins(rt: &impl Abort, alloc: Global, host: &HostRuntime, staged: &Staged<'_>) {
    let reports = Reports::new().of_version("2026-12-01");
    let mut net = TcpNet::with_waits(alloc, staged, &reports, waits());
    let place = free_place(rt, host);
    staged.pass(2 * SECOND);
    let mut monitor = net.monitor(&place).expect(rt, "a free port");
    let _ = staged.take_lines(rt);
    assert!(rt; monitor.is_asked(), "it looks itself");
    monitor.tell(&NUMBERS);
    let line = "bridge: run 7 begins: 9 entries pending, room for 20500 bytes";
    assert_said(rt, staged, Some(line));
    assert!(rt; !monitor.is_asked(), "a second hasn't passed");
    staged.pass(SECOND);
    let text = page(rt, alloc, host, &mut monitor, &place, &NUMBERS);
    assert_said(rt, staged, None);
    let lines = [
        "bridge_build_info{version=\"2026-12-01\"} 1",
        "bridge_start_time_seconds 7",
    ];
    assert_lines(rt, &text, &lines);
}

// A spool fills, is looked at again, and has room again.
fn fullness_is_said(rt: &impl Abort, alloc: Global, host: &HostRuntime, staged: &Staged<'_>) {
    let full = SpoolNumbers {
        free_slots: 0,
        ..NUMBERS
    };
    let reports = Reports::new();
    let mut net = TcpNet::with_waits(alloc, staged, &reports, waits());
    let (place, senders) = (free_place(rt, host), free_place(rt, host));
    let mut monitor = net.monitor(&place).expect(rt, "a free port");
    let _ = staged.take_lines(rt);
    let mut door = bound(rt, staged, &mut net, &senders);
    monitor.tell(&full);
    let _ = staged.take_lines(rt);
    let (near, far) = pair(rt, &mut net, &mut door, &senders);
    net.hang_up(near);
    let talk = Talk::Full { need: 9, room: 8 };
    assert!(rt; door.give_back(far, Proto::Relp, 0, 67, talk).is_ok());
    let _ = staged.take_lines(rt);
    let line = "bridge: FILE has no room; nothing is acknowledged until it has";
    for (numbers, line) in [
        (full, Some(line)),
        (full, None),
        (NUMBERS, Some("bridge: FILE has room again")),
        (NUMBERS, None),
    ] {
        staged.pass(SECOND);
        assert!(rt; monitor.is_asked(), "it looks itself");
        monitor.tell(&numbers);
        assert_said(rt, staged, line);
    }
}

// The oldest pending entry waits, is confirmed, and another one comes.
fn the_oldest_entry_waits(rt: &impl Abort, alloc: Global, host: &HostRuntime, staged: &Staged<'_>) {
    let reports = Reports::quiet();
    let mut net = TcpNet::with_waits(alloc, staged, &reports, waits());
    let place = free_place(rt, host);
    let mut monitor = net.monitor(&place).expect(rt, "a free port");
    for (passed, cursor, end, seconds) in [
        (0, 990, 1_002, 0),
        (10, 990, 1_002, 10),
        // entries are confirmed, and the last of those that were seen first is pending
        (1, 1_001, 1_005, 11),
        (1, 1_002, 1_005, 1),
        (1, 1_005, 1_005, 0),
        (7, 1_005, 1_005, 0),
        (7, 1_005, 1_006, 0),
        (61, 1_005, 1_006, 61),
    ] {
        staged.pass(passed * SECOND);
        let numbers = SpoolNumbers {
            cursor,
            end,
            known_count: 0,
            ..NUMBERS
        };
        let text = page(rt, alloc, host, &mut monitor, &place, &numbers);
        let line = format!(in alloc; "bridge_oldest_pending_seconds {seconds}");
        assert_lines(rt, &text, &[line.expect(rt, "memory").as_str()]);
    }
    // one more comes each second, and none is confirmed for a long time
    for more in 1..=500u64 {
        staged.pass(SECOND);
        monitor.tell(&SpoolNumbers {
            cursor: 1_005,
            end: 1_006 + more,
            ..NUMBERS
        });
    }
    for (cursor, least, most) in [(1_005, 561, 561), (1_256, 224, 249), (1_504, 1, 2)] {
        let numbers = SpoolNumbers {
            cursor,
            end: 1_506,
            ..NUMBERS
        };
        let text = page(rt, alloc, host, &mut monitor, &place, &numbers);
        let start = text.split_once("\nbridge_oldest_pending_seconds ");
        let (_, rest) = start.expect(rt, "a number");
        let (seconds, _) = rest.split_once('\n').expect(rt, "its end");
        let seconds = seconds.parse::<u64>().expect(rt, "a number");
        assert!(rt; least <= seconds && seconds <= most, "{cursor}: {seconds}");
    }
}

fn an_entry_is_held_up(rt: &impl Abort, alloc: Global, host: &HostRuntime, staged: &Staged<'_>) {
    let reports = Reports::quiet();
    let mut net = TcpNet::with_waits(alloc, staged, &reports, waits());
    let place = free_place(rt, host);
    let mut monitor = net.monitor(&place).expect(rt, "a free port");
    for (failed, cursor, entry) in [
        (held_up(990, None), 990, None),
        (held_up(990, None), 990, Some("bridge_held_up_entry 990")),
        (held_up(991, None), 991, None),
        (
            held_up(992, Some(500)),
            992,
            Some("bridge_held_up_entry 992"),
        ),
        (held_up(993, None), 992, Some("bridge_held_up_entry 992")),
    ] {
        net.report_held_up("10.0.0.7:514", &failed);
        let numbers = SpoolNumbers { cursor, ..NUMBERS };
        let text = page(rt, alloc, host, &mut monitor, &place, &numbers);
        let found = text
            .lines()
            .find(|line| line.starts_with("bridge_held_up_entry "));
        assert!(rt; found == entry, "{cursor}: {found:?}");
    }
}

fn refusals_and_bytes_are_counted(
    rt: &impl Abort,
    alloc: Global,
    host: &HostRuntime,
    staged: &Staged<'_>,
) {
    let reports = Reports::new();
    let mut net = TcpNet::with_waits(alloc, staged, &reports, waits());
    let (place, senders) = (free_place(rt, host), free_place(rt, host));
    let mut monitor = net.monitor(&place).expect(rt, "a free port");
    let _ = staged.take_lines(rt);
    let mut door = bound(rt, staged, &mut net, &senders);
    let (mut near, mut far) = pair(rt, &mut net, &mut door, &senders);
    let text = page(rt, alloc, host, &mut monitor, &place, &NUMBERS);
    let lines = [
        "bridge_received_bytes_total 0",
        "bridge_sent_bytes_total 0",
        "bridge_sender_refusals_total{protocol=\"hec\",code=\"401\"} 0",
        "bridge_sender_refusals_total{protocol=\"relp\",code=\"500\"} 0",
    ];
    assert_lines(rt, &text, &lines);
    pass(rt, &mut near, &mut far, "1 open 0\n");
    pass(rt, &mut near, &mut far, "2 close 0\n");
    for (text, times) in [
        ("HTTP/1.1 200 OK\r\n", 1),
        ("HTTP/1.1 400 No\r\n", 1),
        ("HTTP/1.1 401 No\r\n", 2),
        ("HTTP/1.1 403 No\r\n", 1),
        ("HTTP/1.1 404 No\r\n", 1),
        ("HTTP/1.1 405 No\r\n", 1),
        ("HTTP/1.1 413 No\r\n", 1),
        ("HTTP/1.1 500 No\r\n", 3),
        ("HTTP/1.1 503 No\r\n", 4),
        ("2 rsp 12 500 not open\n", 5),
    ] {
        for _ in 0..times {
            assert!(rt; far.write(text.as_bytes()) == Ok(text.len()));
        }
    }
    let text = page(rt, alloc, host, &mut monitor, &place, &NUMBERS);
    let lines = [
        "bridge_received_bytes_total 19",
        "bridge_sent_bytes_total 19",
        "bridge_sender_refusals_total{protocol=\"hec\",code=\"400\"} 1",
        "bridge_sender_refusals_total{protocol=\"hec\",code=\"401\"} 2",
        "bridge_sender_refusals_total{protocol=\"hec\",code=\"403\"} 1",
        "bridge_sender_refusals_total{protocol=\"hec\",code=\"404\"} 1",
        "bridge_sender_refusals_total{protocol=\"hec\",code=\"405\"} 1",
        "bridge_sender_refusals_total{protocol=\"hec\",code=\"500\"} 3",
        "bridge_sender_refusals_total{protocol=\"hec\",code=\"503\"} 4",
        "bridge_sender_refusals_total{protocol=\"hec\",code=\"other\"} 1",
        "bridge_sender_refusals_total{protocol=\"relp\",code=\"500\"} 5",
    ];
    assert_lines(rt, &text, &lines);
}

fn calls_of_the_file_are_counted(
    rt: &impl Abort,
    alloc: Global,
    host: &HostRuntime,
    staged: &Staged<'_>,
) {
    let reports = Reports::quiet();
    let mut net = TcpNet::with_waits(alloc, staged, &reports, waits());
    let place = free_place(rt, host);
    let mut monitor = net.monitor(&place).expect(rt, "a free port");
    let text = page(rt, alloc, host, &mut monitor, &place, &NUMBERS);
    let lines = [
        "# TYPE bridge_sync_seconds histogram",
        "bridge_sync_seconds_bucket{le=\"+Inf\"} 0",
        "bridge_sync_seconds_sum 0.000000",
        "bridge_sync_seconds_count 0",
        "bridge_file_written_bytes_total 0",
    ];
    assert_lines(rt, &text, &lines);
    for micros in [500, 501, 1_000, 40_000, 5_000_000, 6_000_000] {
        reports.file().synced(Duration::from_micros(micros));
    }
    reports.file().wrote(4_096);
    reports.file().wrote(1);
    let text = page(rt, alloc, host, &mut monitor, &place, &NUMBERS);
    let lines = [
        "bridge_sync_seconds_bucket{le=\"0.0005\"} 1",
        "bridge_sync_seconds_bucket{le=\"0.001\"} 3",
        "bridge_sync_seconds_bucket{le=\"0.01\"} 3",
        "bridge_sync_seconds_bucket{le=\"0.05\"} 4",
        "bridge_sync_seconds_bucket{le=\"1\"} 4",
        "bridge_sync_seconds_bucket{le=\"5\"} 5",
        "bridge_sync_seconds_bucket{le=\"+Inf\"} 6",
        "bridge_sync_seconds_sum 11.042001",
        "bridge_sync_seconds_count 6",
        "bridge_file_written_bytes_total 4097",
    ];
    assert_lines(rt, &text, &lines);
}

/// Each by a net of its own, at ports of its own.
pub(crate) fn pages_say_how_the_run_is(rt: &impl Abort, alloc: Global, host: &HostRuntime) {
    let staged = Staged::over(alloc, host);
    a_run_begins(rt, alloc, host, &staged);
    fullness_is_said(rt, alloc, host, &staged);
    the_oldest_entry_waits(rt, alloc, host, &staged);
    an_entry_is_held_up(rt, alloc, host, &staged);
    refusals_and_bytes_are_counted(rt, alloc, host, &staged);
    calls_of_the_file_are_counted(rt, alloc, host, &staged);
}
