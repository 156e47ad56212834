//! Which lines are due, by times that are given.
use edge_net::{Answer, Illness, Line, Matter, Pace, Receiver, Recent, Stamp, Standstill, Topic};
use std::alloc::Global;
use std::net::{IpAddr, Ipv4Addr};
use std::process::Abort;
use std::time::Duration;

// A topic of the peer 10.0.0.N.
fn topic(peer: u8, code: u16) -> Topic {
    Topic {
        peer: IpAddr::V4(Ipv4Addr::new(10, 0, 0, peer)),
        matter: Matter::RequestRefused {
            code,
            reason: None,
            line: None,
            end: None,
        },
    }
}

fn line(count: u64, others: u64) -> Option<Line> {
    Some(Line { count, others })
}

fn a_topic_has_one_line_a_minute(rt: &impl Abort) {
    let mut recent = Recent::new();
    for (peer, code, now, due) in [
        (1, 401, 5_000, line(1, 0)),
        (1, 401, 5_000, None),
        // the same of another peer, and something else of the same one
        (2, 401, 5_001, line(1, 0)),
        (1, 403, 5_002, line(1, 0)),
        (1, 401, 64_999, None),
        (1, 401, 65_000, line(3, 0)),
        (1, 401, 124_999, None),
        (2, 401, 200_000, line(1, 0)),
        (1, 401, 200_000, line(2, 0)),
    ] {
        let given = recent.note(topic(peer, code), now);
        assert!(rt; given == due, "{peer}, {code} at {now}");
    }
}

fn ten_lines_a_second_are_printed(rt: &impl Abort) {
    let mut pace = Pace::new();
    let mut taken = [0u64; 40];
    let mut count = 0usize;
    // an attempt each 7 milliseconds, which is some 20 times as often as a line may come
    for turn in 0..500u64 {
        let now = 1_000_000 + turn * 7;
        if pace.take(now) && count < 40 {
            taken[count] = now;
            count += 1;
        }
    }
    assert!(rt; count == 40);
    for i in 10..40usize {
        let (this, tenth_before) = (taken[i], taken[i - 10]);
        assert!(rt; this.saturating_sub(tenth_before) >= 1_000, "{this}");
        assert!(rt; this.saturating_sub(tenth_before) < 1_007, "{this}");
    }
}

// A flood of 250 peers, which come 4 times each within a second, and what is left is said with the next line of another.
fn a_flood_is_counted(rt: &impl Abort) {
    let mut recent = Recent::new();
    let (mut lines, mut said) = (0u64, 0u64);
    for turn in 0..1_000u64 {
        let peer = (turn % 250) as u8;
        if let Some(line) = recent.note(topic(peer, 401), 70_000 + turn) {
            lines = lines.saturating_add(1);
            said = said.saturating_add(line.count).saturating_add(line.others);
        }
    }
    assert!(rt; lines == 10, "{lines}");
    // 64 peers are kept in mind, and those that were said have nothing unsaid
    let last = recent.note(topic(255, 401), 200_000);
    let Some(last) = last else {
        panic!(rt; "a line is due");
    };
    said = said.saturating_add(last.count).saturating_add(last.others);
    assert!(rt; last.count == 1 && said > 900 && said <= 1_001, "{said}");
    // the rest stands at the peers that are kept in mind
    for peer in 0..=255u8 {
        let now = 300_000 + u64::from(peer) * 1_000;
        if let Some(line) = recent.note(topic(peer, 401), now) {
            said = said.saturating_add(line.count).saturating_add(line.others);
        }
    }
    assert!(rt; said == 1_257, "{said}");
}

fn a_receiver_is_said_at_each_change(rt: &impl Abort) {
    let mut receiver = Receiver::new();
    assert!(rt; receiver.is_well().is_none(), "nothing was said");
    for (illness, now, due) in [
        (Illness::Unreached, 1_000, Some(1)),
        // no news, however late
        (Illness::Unreached, 90_000, None),
        (Illness::Closed, 90_001, Some(2)),
        // news, but a minute hasn't passed
        (Illness::Refuses { code: 500 }, 150_000, None),
        (Illness::Refuses { code: 500 }, 150_001, Some(2)),
        (Illness::Refuses { code: 503 }, 400_000, Some(1)),
    ] {
        let given = receiver.fails(illness, now);
        assert!(rt; given == due, "at {now}: {given:?}");
    }
    assert!(rt; receiver.fails(Illness::Closed, 400_001).is_none());
    assert!(rt; receiver.is_well() == Some(1));
    assert!(rt; receiver.is_well().is_none(), "that was said");
    // a minute after the last failure that was said, what was kept back is counted
    assert!(rt; receiver.fails(Illness::Closed, 459_999).is_none());
    assert!(rt; receiver.is_well().is_none(), "no failure was said");
    assert!(rt; receiver.fails(Illness::Closed, 460_000) == Some(2));
}

fn an_entry_has_one_line_a_minute(rt: &impl Abort) {
    let mut standstill = Standstill::new();
    for (number, is_refused, now, due) in [
        // a session that was lost, and the next one at the same entry
        (7, false, 1_000, false),
        (7, false, 2_000, true),
        (7, true, 61_999, false),
        (7, true, 62_000, true),
        // another entry, ten seconds after that line
        (8, true, 71_999, false),
        (8, true, 72_000, true),
        (9, false, 90_000, false),
        (9, false, 90_001, true),
        // the one before comes back
        (8, false, 95_000, false),
        (8, false, 100_001, true),
        (9, true, 100_002, false),
        // lost each time at another one
        (10, false, 300_000, false),
        (11, false, 400_000, false),
        (12, true, u64::MAX, true),
        (12, true, u64::MAX, true),
    ] {
        let given = standstill.fails(number, is_refused, now);
        assert!(rt; given == due, "{number} at {now}: {given}");
    }
}

fn answers_are_told_by_their_first_bytes(rt: &impl Abort) {
    let reply = |code| Some(Answer::Reply { code });
    let frame = |code| Some(Answer::Frame { code });
    for (text, answer) in [
        ("HTTP/1.1 401 Unauthorized\r\n", reply(401)),
        ("HTTP/1.1 200 OK\r\n", reply(200)),
        ("HTTP/1.1 20", None),
        ("HTTP/1.1 2x0 OK", None),
        ("HTTP/1.0 200 OK", None),
        ("2 rsp 15 500 not open\n", frame(500)),
        ("17 rsp 6 200 OK\n18 rsp 6 200 OK\n", frame(200)),
        ("2 rsp 0\n", None),
        ("0 serverclose 0\n", None),
        ("2 syslog 15 500 not open\n", None),
        ("rsp 15 500 not open\n", None),
        ("2 rsp x 500", None),
        ("2A\u{0}\u{0}", None),
        ("", None),
    ] {
        let given = Answer::at(text.as_bytes());
        assert!(rt; given == answer, "{text}");
    }
}

fn codes_from_400_on_refuse(rt: &impl Abort) {
    for (code, refusal) in [(200, None), (399, None), (400, Some(400)), (503, Some(503))] {
        assert!(rt; Answer::Reply { code }.refusal() == refusal, "{code}");
        assert!(rt; Answer::Frame { code }.refusal() == refusal, "{code}");
    }
}

// Times before a line, by their milliseconds from 1970 on: as `date -u -d @SECONDS` has them.
const STAMPS: [(u64, &str); 17] = [
    (0, "1970-01-01T00:00:00.000Z"),
    (5_097_599_999, "1970-02-28T23:59:59.999Z"),
    (5_097_600_000, "1970-03-01T00:00:00.000Z"),
    (68_169_600_000, "1972-02-29T00:00:00.000Z"),
    (946_684_799_999, "1999-12-31T23:59:59.999Z"),
    (946_684_800_000, "2000-01-01T00:00:00.000Z"),
    (951_782_400_000, "2000-02-29T00:00:00.000Z"),
    (951_868_800_000, "2000-03-01T00:00:00.000Z"),
    (978_307_199_007, "2000-12-31T23:59:59.007Z"),
    (1_709_164_800_000, "2024-02-29T00:00:00.000Z"),
    (1_709_251_200_000, "2024-03-01T00:00:00.000Z"),
    (1_735_689_599_999, "2024-12-31T23:59:59.999Z"),
    (1_735_689_600_000, "2025-01-01T00:00:00.000Z"),
    (1_796_117_400_250, "2026-12-01T09:30:00.250Z"),
    (4_107_542_399_000, "2100-02-28T23:59:59.000Z"),
    (4_107_542_400_000, "2100-03-01T00:00:00.000Z"),
    (253_402_300_799_999, "9999-12-31T23:59:59.999Z"),
];

fn times_are_of_the_calendar(rt: &impl Abort, alloc: Global) {
    for (millis, text) in STAMPS {
        let stamp = Stamp {
            since_1970: Duration::from_millis(millis),
        };
        let given = format!(in alloc; "{stamp}").expect(rt, "memory");
        assert!(rt; given.as_str() == text, "{given}");
    }
}

/// Each with what it keeps in mind of its own.
pub(crate) fn lines_are_few_and_count_the_rest(rt: &impl Abort, alloc: Global) {
    a_topic_has_one_line_a_minute(rt);
    ten_lines_a_second_are_printed(rt);
    a_flood_is_counted(rt);
    a_receiver_is_said_at_each_change(rt);
    an_entry_has_one_line_a_minute(rt);
    answers_are_told_by_their_first_bytes(rt);
    codes_from_400_on_refuse(rt);
    times_are_of_the_calendar(rt, alloc);
}
