//! Marks and what is known after them, worked out by hand, and by a bitmap.
use known_numbers::{KnownNumbers, MOST_STRETCHES, Stretch, are_apart};
use std::alloc::Global;
use std::process::Abort;

// Each row: the stretch that is added, from and to; the cursor after it; from and to of each stretch after it. Out of order, up to
// the cursor, touching, overlapping, over several, empty, and known before.
const ROWS: &str = "3 4 0 3 4
1 2 0 1 2 3 4
0 1 2 3 4
2 3 4
0 5 5
0 3 5
10 12 5 10 12
12 14 5 10 14
8 11 5 8 14
20 20 5 8 14
30 20 5 8 14
20 22 5 8 14 20 22
16 18 5 8 14 16 18 20 22
9 13 5 8 14 16 18 20 22
7 21 5 7 22
2 7 22";

// The numbers from one up to and without another.
fn of(from: u64, to: u64) -> Stretch {
    Stretch { from, to }
}

// The numbers of a row.
fn numbers_of(rt: &impl Abort, alloc: Global, row: &str) -> Vec<u64> {
    let mut numbers = Vec::new(alloc);
    for word in row.split(' ') {
        let number = word.parse::<u64>().expect(rt, "a number");
        numbers.push(number).expect(rt, "memory");
    }
    numbers
}

// Whether the stretches go from the first to the second number of each two.
fn are(stretches: &[Stretch], numbers: &[u64]) -> bool {
    let mut rest = numbers;
    for stretch in stretches {
        match rest {
            [from, to, more @ ..] if stretch.from == *from && stretch.to == *to => rest = more,
            _ => return false,
        }
    }
    rest.is_empty()
}

/// Each row's stretch is added, and the row's numbers are known then.
pub(crate) fn marks_in_turn(rt: &impl Abort, alloc: Global) {
    let mut known = KnownNumbers::reserve(alloc).expect(rt, "memory");
    assert!(rt; ROWS.lines().count() == 16);
    for row in ROWS.lines() {
        let numbers = numbers_of(rt, alloc, row);
        let [from, to, cursor, after @ ..] = numbers.as_slice() else {
            panic!(rt; "no row");
        };
        known.mark(&[of(*from, *to)]);
        let stretches = known.stretches();
        let is_right = known.cursor() == *cursor && are(stretches, after);
        assert!(rt; is_right && are_apart(*cursor, stretches), "{row}");
    }
}

// Whether 240 stretches are known, of which these are the first and the last one, with the cursor and the count.
fn has_240(known: &KnownNumbers, cursor: u64, count: u64, ends: [Stretch; 2]) -> bool {
    let stretches = known.stretches();
    let [first, .., last] = stretches else {
        return false;
    };
    let is_right = known.cursor() == cursor && known.count() == count;
    is_right && stretches.len() == 240 && [*first, *last] == ends
}

// 300 stretches of one number each: 1, 3, 5 and so on.
fn odd_numbers(rt: &impl Abort, alloc: Global) -> Vec<Stretch> {
    let mut odd = Vec::new(alloc);
    for n in 0..300 {
        odd.push(of(2 * n + 1, 2 * n + 2)).expect(rt, "memory");
    }
    odd
}

/// A stretch that would be one too many is passed over, and the next ones are still added.
pub(crate) fn stops_at_240(rt: &impl Abort, alloc: Global) {
    assert!(rt; MOST_STRETCHES == 240);
    let odd = odd_numbers(rt, alloc);
    let mut known = KnownNumbers::reserve(alloc).expect(rt, "memory");
    known.mark(&odd);
    assert!(rt; has_240(&known, 0, 240, [of(1, 2), of(479, 480)]));
    known.mark(&[of(0, 1), of(481, 482)]);
    assert!(rt; has_240(&known, 2, 240, [of(3, 4), of(481, 482)]));
    known.mark(&[of(600, 601), of(4, 5), of(600, 601), of(700, 701)]);
    assert!(rt; has_240(&known, 2, 242, [of(3, 6), of(600, 601)]));
    let mut other = KnownNumbers::reserve(alloc).expect(rt, "memory");
    other.copy_from(&known);
    known.mark(&[of(0, 800)]);
    assert!(rt; known.cursor() == 800 && known.count() == 0 && other.count() == 242);
}

// Whether those of the numbers below 64 are known whose bits are 1.
fn are_bits(known: &KnownNumbers, bits: u64) -> bool {
    let cursor = u64::from(bits.trailing_ones());
    let count = u64::from(bits.count_ones());
    if known.cursor() != cursor || known.count().wrapping_add(cursor) != count {
        return false;
    }
    for n in 0..64 {
        let ones = u64::from((bits >> n).trailing_ones());
        if known.contains(n) != (ones > 0) || known.next_unknown(n) != n + ones {
            return false;
        }
    }
    true
}

/// The same numbers are known as in a bitmap, after each of 400 marks that a generator makes.
pub(crate) fn knows_what_a_bitmap_knows(rt: &impl Abort, alloc: Global) {
    let mut known = KnownNumbers::reserve(alloc).expect(rt, "memory");
    let mut bits = 0u64;
    let mut seed = 1u64;
    for mark in 0..400u32 {
        seed = seed
            .wrapping_mul(6_364_136_223_846_793_005)
            .wrapping_add(1_442_695_040_888_963_407);
        let from = seed >> 58;
        let to = (from + (seed >> 40) % 4).min(64);
        for n in from..to {
            bits |= 1 << n;
        }
        known.mark(&[of(from, to)]);
        assert!(rt; are_bits(&known, bits), "mark {mark}");
        if mark % 40 == 39 {
            bits = 0;
            known.set(0, &[]);
        }
    }
}
