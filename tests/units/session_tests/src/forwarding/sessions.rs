//! What holds of whole sessions.
use crate::forwarding::fields::{add, check_form, number, numbers, said};
use crate::forwarding::harness::{Left, filled, session};
use crate::forwarding::peers::peer;
use crate::forwarding::written::written;
use edge_io::Proto;
use edge_memory::MemDisk;
use std::alloc::Global;
use std::process::Abort;

// The words of a row: `row NAME`; `count N`, how many entries the spool has; what [`peer`] reads; what [`session`] reads; `steps`, how
// many bytes a read brings at most, each in turn, and `cuts`, how many bytes the peer sends at most, each in turn; and what is left:
// `ends HOW`, what [`written`] reads, `stay`, the numbers of the entries that aren't known as confirmed, and `pauses N`.
const WORDS: &str = "row count polls reads writes steps cuts bytes line head ack reply \
    ends open entries close window events query stay pauses";

// Which part of what a session left isn't as the row has it.
fn wrong_part(rt: &impl Abort, alloc: Global, row: &str, left: &Left) -> &'static str {
    if left.ends.as_str() != said(row, "ends", "") {
        return "the ending";
    }
    if left.written != written(rt, alloc, row) {
        return "what is written";
    }
    if left.numbers != numbers(rt, alloc, row, "stay", "") {
        return "what stays";
    }
    if left.pauses != number(said(row, "pauses", "")) {
        return "the pauses";
    }
    ""
}

// What a session leaves over a device, in which a read brings at most so many bytes, and the peer sends these.
fn left(
    rt: &impl Abort,
    alloc: Global,
    proto: Proto,
    row: &str,
    device: &[u8],
    sends: Vec<u8>,
    step: u64,
) -> Left {
    let device = device.to_vec(alloc).expect(rt, "memory");
    let disk = MemDisk::of(device, Vec::new(alloc));
    session(rt, alloc, proto, row, disk, sends, step.max(1) as usize).expect(rt, "not opened")
}

// A row's session, in which a read brings at most so many bytes, and the peer sends at most so many.
fn check(
    rt: &impl Abort,
    alloc: Global,
    proto: Proto,
    row: &str,
    device: &[u8],
    step: u64,
    cut: u64,
) {
    let mut sends = peer(rt, alloc, row);
    sends.truncate(cut as usize);
    let left = left(rt, alloc, proto, row, device, sends, step);
    let wrong = wrong_part(rt, alloc, row, &left);
    assert!(rt;
        wrong.is_empty(),
        "{wrong}, step {step}, {cut} bytes; it ended by {}: {row}",
        left.ends
    );
}

// The sessions of a row, in each of its steps and with each of its cuts.
fn check_row(rt: &impl Abort, alloc: Global, proto: Proto, row: &str) {
    let device = filled(rt, alloc, row);
    let steps = numbers(rt, alloc, row, "steps", "1 31 1000");
    let cuts = numbers(rt, alloc, row, "cuts", "1000000");
    for step in &steps {
        for cut in &cuts {
            check(rt, alloc, proto, row, &device, *step, *cut);
        }
    }
}

/// The sessions of a table's rows. These are so many: a row that was run into another one by a lacking empty line is told by that.
pub(crate) fn check_rows(rt: &impl Abort, alloc: Global, proto: Proto, rows: &str, count: usize) {
    check_form(rt, rows, WORDS, count);
    for row in rows.split("\n\n") {
        check_row(rt, alloc, proto, row);
    }
}

// Whether these are each second number below 480 and each from there on, of 600.
fn are_scattered(numbers: &[u64]) -> bool {
    for (place, number) in numbers.iter().enumerate() {
        let place = place as u64;
        let wanted = place.saturating_add(place.min(240));
        if *number != wanted {
            return false;
        }
    }
    numbers.len() == 360
}

/// Each second entry of 600 is acknowledged, of which the spool keeps 240 apart.
pub(crate) fn check_scattered(rt: &impl Abort, alloc: Global, row: &str) {
    check_form(rt, row, WORDS, 1);
    let mut sends = peer(rt, alloc, row);
    for place in 0..300_u64 {
        let number = (2 * place + 3).to_string(alloc).expect(rt, "memory");
        add(rt, &mut sends, &[number.as_bytes(), b" rsp 6 200 OK\n"]);
    }
    let device = filled(rt, alloc, row);
    let left = left(rt, alloc, Proto::Relp, row, &device, sends, 1000);
    assert_eq!(rt; wrong_part(rt, alloc, row, &left), "what stays");
    assert!(rt; are_scattered(&left.numbers));
}

// Whether a session ended by a fault of its disk. If not, it ended as the row has it. The entries that weren't acknowledged stay.
fn ends_by_fault(rt: &impl Abort, alloc: Global, row: &str, left: &Left) -> bool {
    let stay = numbers(rt, alloc, row, "stay", "");
    assert!(rt; left.numbers.ends_with(&stay), "what stays: {row}");
    if left.ends.as_str() == "DiskFault" {
        return true;
    }
    assert_eq!(rt; left.ends.as_str(), said(row, "ends", ""));
    assert!(rt; left.numbers == stay, "what stays without a fault: {row}");
    false
}

// Over a disk of which that call fails: whether the session ended by that.
fn is_fault(
    rt: &impl Abort,
    alloc: Global,
    proto: Proto,
    row: &str,
    device: &[u8],
    call: u64,
) -> bool {
    let device = device.to_vec(alloc).expect(rt, "memory");
    let failing = Vec::from_slice(alloc, &[call]).expect(rt, "memory");
    let disk = MemDisk::of(device, failing);
    let sends = peer(rt, alloc, row);
    match session(rt, alloc, proto, row, disk, sends, 1000) {
        Some(left) => ends_by_fault(rt, alloc, row, &left),
        None => false,
    }
}

/// Whichever call of the disk fails, the session ends by that.
pub(crate) fn check_faults(rt: &impl Abort, alloc: Global, proto: Proto, row: &str) {
    check_form(rt, row, WORDS, 1);
    let device = filled(rt, alloc, row);
    let mut failed = false;
    for call in 0..40 {
        failed = is_fault(rt, alloc, proto, row, &device, call) || failed;
    }
    assert!(rt; failed, "no call failed: {row}");
}
