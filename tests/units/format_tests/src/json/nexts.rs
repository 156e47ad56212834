//! Which bytes can stand after some fronts.
use crate::spelling::spell;
use json_span::{JsonFault, first_value};
use std::alloc::Global;
use std::process::Abort;

// The bytes that can stand: some, and those of stretches, each by its first byte and its last.
fn bytes_of(rt: &impl Abort, alloc: Global, single: &str, stretches: &str) -> Vec<u8> {
    let mut ends = Vec::new(alloc);
    spell(rt, stretches, &mut ends);
    let mut bytes = Vec::new(alloc);
    spell(rt, single, &mut bytes);
    for stretch in ends.chunks(2) {
        if let [first, last] = stretch {
            for byte in *first..=*last {
                bytes.push(byte).expect(rt, "memory");
            }
        }
    }
    bytes
}

// Each of these bytes can stand after the front, and each other is a fault at the place.
fn check_front(rt: &impl Abort, alloc: Global, front: &str, at: usize, next: &[u8]) {
    let mut bytes = Vec::new(alloc);
    for byte in 0..=255 {
        bytes.clear();
        spell(rt, front, &mut bytes);
        bytes.push(byte).expect(rt, "memory");
        let is_fault = first_value(&bytes, 0) == Err(JsonFault::NotJson { at });
        let can_stand = matches!(first_value(&bytes, 0), Ok(_) | Err(JsonFault::Cut));
        let is_next = next.contains(&byte);
        assert!(rt;
            can_stand == is_next && is_fault != is_next,
            "{byte} after {front}"
        );
    }
}

/// Each row has a front, the place of the fault of a byte that can't stand after it, and those that can: some, and stretches.
pub fn check(rt: &impl Abort, alloc: Global, table: &str) {
    for line in table.lines() {
        let mut parts = line.split('|');
        let front = parts.next().expect(rt, "a front");
        let at = parts
            .next()
            .expect(rt, "a place")
            .parse::<usize>()
            .expect(rt, "a number");
        let single = parts.next().expect(rt, "bytes");
        let stretches = parts.next().expect(rt, "stretches");
        check_front(
            rt,
            alloc,
            front,
            at,
            &bytes_of(rt, alloc, single, stretches),
        );
    }
}
