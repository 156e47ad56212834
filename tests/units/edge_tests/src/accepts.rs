//! Accepts that fail, and doors that nobody serves, by a clock and a standard error in memory.
use crate::scraped::NUMBERS;
use crate::sockets::free_place;
use crate::staged::Staged;
use edge_io::{Door, Monitor, Net, Pause, Proto};
use edge_net::{Reports, TcpNet, Waits, next_connection};
use event_form::Talk;
use std::alloc::Global;
use std::cell::Cell;
use std::io;
use std::net::{OpenListener, SocketAddr};
use std::process::Abort;
use std::sync::atomic::AtomicU64;
use std::time::Duration;

// A minute and a second, in milliseconds.
const MINUTE: u64 = 61_000;

// The numbers of Linux for errors that pass, of the connection that was to be accepted or of the system.
const PASSING: [i32; 19] = [
    1, // EPERM
    11, // EAGAIN
    12, // ENOMEM
    23, // ENFILE
    24, // EMFILE
    71, // EPROTO
    92, // ENOPROTOOPT
    100, // ENETDOWN
    101, // ENETUNREACH
    103, // ECONNABORTED
    104, // ECONNRESET
    105, // ENOBUFS
    107, // ENOTCONN
    110, // ETIMEDOUT
    111, // ECONNREFUSED
    112, // EHOSTDOWN
    113, // EHOSTUNREACH
    5, // EIO
    64, // ENONET
];

// How long each of these is waited out, in milliseconds.
const WAITED: [u64; 19] = [
    100, 200, 400, 800, 1_000, 1_000, 1_000, 1_000, 1_000, 1_000, 1_000, 1_000, 1_000, 1_000,
    1_000, 1_000, 1_000, 1_000, 1_000,
];

// The numbers of those that last.
const LASTING: [i32; 6] = [
    9, // EBADF
    14, // EFAULT
    22, // EINVAL
    38, // ENOSYS
    88, // ENOTSOCK
    95, // EOPNOTSUPP
];

// A socket that fails by these errors, one at each accept, and then accepts: how many accepts there were is the stream.
#[derive(Drop)]
struct Failing {
    errors: &'static [i32],
    accepts: Cell<usize>,
}

impl Failing {
    fn by(errors: &'static [i32]) -> Failing {
        Failing {
            errors,
            accepts: Cell::new(0),
        }
    }
}

impl OpenListener for Failing {
    type Stream = usize;

    fn accept(&self) -> io::Result<(usize, SocketAddr)> {
        let before = self.accepts.get();
        self.accepts.set(before.saturating_add(1));
        match self.errors.get(before) {
            Some(code) => Err(io::Error::from_raw_os_error(*code)),
            None => match "127.0.0.1:1".parse() {
                Ok(peer) => Ok((before, peer)),
                Err(_) => Err(io::Error::from_raw_os_error(9)),
            },
        }
    }
}

// How many accepts came before the one that gave this, whose peer is the one that accepts give here.
fn number_of(accepted: &io::Result<(usize, SocketAddr)>) -> Option<usize> {
    match accepted {
        Ok((number, peer)) if peer.port() == 1 => Some(*number),
        _ => None,
    }
}

fn errors_that_pass_are_waited_out(rt: &impl Abort, staged: &Staged<'_>) {
    let reported = AtomicU64::new(0);
    let accepted = next_connection(staged, &Failing::by(&PASSING), "p:1", &reported);
    assert!(rt; number_of(&accepted) == Some(19));
    assert!(rt; staged.take_sleeps(rt).as_slice() == WAITED.as_slice());
    let lines = staged.take_lines(rt);
    let [line] = lines.as_slice() else {
        panic!(rt; "one line within a minute");
    };
    assert!(rt;
        line.starts_with("bridge: p:1: can't accept a connection: "),
        "{line}"
    );
    assert!(rt; line.ends_with(" (os error 1); waiting"), "{line}");
}

fn a_line_is_printed_once_a_minute(rt: &impl Abort, staged: &Staged<'_>) {
    let reported = AtomicU64::new(0);
    for (millis, count) in [(0, 1), (58_000, 0), (2_000, 0), (2_000, 1), (30_000, 0)] {
        staged.pass(millis);
        let accepted = next_connection(staged, &Failing::by(&[24]), "p:1", &reported);
        assert!(rt; number_of(&accepted) == Some(1));
        assert!(rt; staged.take_lines(rt).len() == count, "after {millis}");
    }
    // each accept begins with the short wait
    assert!(rt; staged.take_sleeps(rt).as_slice() == [100; 5].as_slice());
}

fn errors_that_last_are_faults(rt: &impl Abort, staged: &Staged<'_>) {
    let reported = AtomicU64::new(0);
    for (place, code) in LASTING.iter().enumerate() {
        let Some(errors) = LASTING.get(place..) else {
            panic!(rt; "a place in the list");
        };
        let accepted = next_connection(staged, &Failing::by(errors), "p:1", &reported);
        let number = accepted.err().and_then(|error| error.raw_os_error());
        assert!(rt; number == Some(*code), "{code}");
    }
    assert!(rt; staged.take_sleeps(rt).is_empty() && staged.take_lines(rt).is_empty());
}

// That this was printed of a place whose two doors have connections, or nothing.
fn assert_busy(rt: &impl Abort, staged: &Staged<'_>, place: &str, is_said: bool) {
    let lines = staged.take_lines(rt);
    let (line, is_one) = match lines.as_slice() {
        [] => ("", false),
        [line] => (line.as_str(), true),
        _ => panic!(rt; "a line at most, not {lines:?}"),
    };
    assert!(rt; is_one == is_said, "{line}");
    let tail = ": all 2 workers serve one; further ones wait";
    let holds = line.starts_with("bridge: senders at ") && line.ends_with(tail);
    assert!(rt; !is_said || (holds && line.contains(place)), "{line}");
}

// A place whose doors all have connections is reported once a minute as long as that is so, though no further one is accepted: by the one
// who pauses, and by the monitor.
fn places_in_use_are_reported_each_minute(
    rt: &impl Abort,
    alloc: Global,
    host: &HostRuntime,
    staged: &Staged<'_>,
) {
    let (place, asked) = (free_place(rt, host), free_place(rt, host));
    let reports = Reports::new();
    let waits = Waits {
        roll: Duration::ZERO,
        ..Waits::standard()
    };
    let mut net = TcpNet::with_waits(alloc, staged, &reports, waits);
    let mut monitor = net.monitor(asked.as_str()).expect(rt, "a free port");
    let mut doors = net.bind(place.as_str(), 2).expect(rt, "a free port");
    let mut door = doors.pop().expect(rt, "two doors");
    let _ = staged.take_lines(rt);
    let first = net.dial(place.as_str()).expect(rt, "a port that listens");
    let far = door.accept(0).expect(rt, "a connection waits");
    let far = far.expect(rt, "no door is shut");
    // (the other door has not begun)
    let _ = staged.take_lines(rt);
    net.pause();
    assert_busy(rt, staged, &place, false);
    let second = net.dial(place.as_str()).expect(rt, "a port that listens");
    let mut other = doors.pop().expect(rt, "two doors");
    assert!(rt; matches!(other.accept(1), Ok(Some(_))));
    assert_busy(rt, staged, &place, true);
    net.pause();
    assert_busy(rt, staged, &place, false);
    for _ in 0..2 {
        staged.pass(MINUTE);
        net.pause();
        assert_busy(rt, staged, &place, true);
        net.wait_briefly();
        assert_busy(rt, staged, &place, false);
        // (59 seconds after the line)
        staged.pass(MINUTE - 2_000);
        net.wait_briefly();
        assert_busy(rt, staged, &place, false);
    }
    staged.pass(MINUTE);
    monitor.tell(&NUMBERS);
    let lines = staged.take_lines(rt);
    let busy = lines
        .as_slice()
        .iter()
        .filter(|line| line.contains("all 2 workers"))
        .count();
    assert!(rt; busy == 1, "{lines:?}");
    monitor.tell(&NUMBERS);
    net.pause();
    assert_busy(rt, staged, &place, false);
    net.hang_up(first);
    assert!(rt; door.give_back(far, Proto::Relp, 0, 0, Talk::Ended).is_ok());
    staged.pass(MINUTE + MINUTE);
    net.pause();
    monitor.tell(&NUMBERS);
    assert_busy(rt, staged, &place, false);
    net.hang_up(second);
}

// Binds two doors at the one place and a door at the other, and accepts at the first: the lines that say which lack a thread.
fn doors_that_nobody_serves_are_reported(
    rt: &impl Abort,
    alloc: Global,
    host: &HostRuntime,
    staged: &Staged<'_>,
) {
    let (one, other) = (free_place(rt, host), free_place(rt, host));
    let reports = Reports::new();
    let mut net = TcpNet::with_waits(alloc, staged, &reports, Waits::standard());
    let mut doors = net.bind(one.as_str(), 2).expect(rt, "a free port");
    let served = net.bind(other.as_str(), 1).expect(rt, "a free port");
    // that the two are listened at
    assert!(rt; staged.take_lines(rt).len() == 2);
    let first = net.dial(one.as_str()).expect(rt, "a port that listens");
    let mut door = doors.pop().expect(rt, "two doors");
    assert!(rt; matches!(door.accept(0), Ok(Some(_))));
    // by looks of 10 milliseconds
    assert!(rt; staged.take_sleeps(rt).as_slice() == [10; 300].as_slice());
    let lines = staged.take_lines(rt);
    let [here, there] = lines.as_slice() else {
        panic!(rt; "a line for each place");
    };
    let tail = ": no thread for 1 of 2 workers; served late";
    assert!(rt;
        here.contains(one.as_str()) && here.ends_with(tail),
        "{here}"
    );
    let tail = ": no thread for 1 of 1 workers; served late";
    assert!(rt;
        there.contains(other.as_str()) && there.ends_with(tail),
        "{there}"
    );
    // once, and at no later accept or pause
    net.hang_up(first);
    for _ in 0..4 {
        net.pause();
    }
    assert!(rt; staged.take_sleeps(rt).as_slice() == [1_000; 4].as_slice());
    assert!(rt; staged.take_lines(rt).is_empty());
    drop((doors, served));
}

// A thread that forwards and waits before any door was served says so once it waited three seconds.
fn a_net_reports_doors_that_wait_for_it(
    rt: &impl Abort,
    alloc: Global,
    host: &HostRuntime,
    staged: &Staged<'_>,
) {
    let place = free_place(rt, host);
    let reports = Reports::new();
    let mut net = TcpNet::with_waits(alloc, staged, &reports, Waits::standard());
    let doors = net.bind(place.as_str(), 1).expect(rt, "a free port");
    assert!(rt; staged.take_lines(rt).len() == 1);
    for _ in 0..20 {
        net.wait_briefly();
    }
    assert!(rt; staged.take_sleeps(rt).as_slice() == [50; 20].as_slice());
    for count in [0, 1, 0] {
        net.pause();
        assert!(rt; staged.take_lines(rt).len() == count);
    }
    drop(doors);
}

/// Each with the lines and sleeps of its own.
pub(crate) fn accepts_fail_and_pass(rt: &impl Abort, alloc: Global, host: &HostRuntime) {
    let staged = Staged::over(alloc, host);
    errors_that_pass_are_waited_out(rt, &staged);
    a_line_is_printed_once_a_minute(rt, &staged);
    errors_that_last_are_faults(rt, &staged);
    doors_that_nobody_serves_are_reported(rt, alloc, host, &staged);
    places_in_use_are_reported_each_minute(rt, alloc, host, &staged);
    let _ = staged.take_sleeps(rt);
    a_net_reports_doors_that_wait_for_it(rt, alloc, host, &staged);
}
