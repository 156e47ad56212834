//! Calls of tables of ids, and what they answer: `C` and `O` are channels, and others are named by their numbers.
//! `issue_often C 10000` issues so many ids on `C`, `issue_on_each 0 1000` one on each of so many channels from 0 on, and `ask_at_once`
//! asks for 6, 8 and 7. The answers are worked out by hand.

/// The run of a table, its first id, and the calls that it gets.
pub const TABLES: [(u32, u32, &str); 6] = [
    (1, 0, TOLD_ONCE),
    (1, 4_294_967_295, LAST_OF_A_RUN),
    (4_294_967_295, 4_294_967_295, LAST),
    (1, 0, FULL_CHANNEL),
    (0, 0, FULL_TABLE),
    (0, 7, AT_ONCE),
];

// An id is told once, when it is settled, on its own channel.
const TOLD_ONCE: &str = "\
issue C => Ok(4294967296)
ask C 4294967296 => false
settle O 4294967296 => false
settle C 4294967296 => true
settle C 4294967296 => false
ask O 4294967296 => false
ask C 4294967296 => true
ask C 4294967296 => false
issue O => Ok(4294967297)
forget C 4294967297 => false
forget O 4294967297 => true
forget O 4294967297 => false
settle O 4294967297 => false";

// The last id of a run, and the last id that can be.
const LAST_OF_A_RUN: &str = "\
issue C => Ok(8589934591)
issue C => Err(NoMore { run: 1 })
issue O => Err(NoMore { run: 1 })";

const LAST: &str = "\
issue C => Ok(18446744073709551615)
issue C => Err(NoMore { run: 4294967295 })";

// A channel holds 10,000 ids at most.
const FULL_CHANNEL: &str = "\
issue_often C 10000 => true
issue C => Err(Busy { held: 10000 })
issue O => Ok(4294977296)
forget C 4294967300 => true
issue C => Ok(4294977297)
issue C => Err(Busy { held: 10000 })";

// At most 1,000 channels hold ids: a channel whose last id is gone is none of them.
const FULL_TABLE: &str = "\
issue_on_each 0 1000 => true
issue C => Err(Busy { held: 1000 })
issue 999 => Ok(1000)
settle 3 3 => true
ask 3 3 => true
issue C => Ok(1001)
issue 3 => Err(Busy { held: 1000 })
forget 999 999 => true
issue 3 => Err(Busy { held: 1000 })
forget 999 1000 => true
issue 3 => Ok(1002)";

// Several ids are asked for at once, 6, 8 and 7: one that was never issued, one that is settled, one that isn't.
const AT_ONCE: &str = "\
issue C => Ok(7)
issue C => Ok(8)
settle C 8 => true
ask_at_once C => [false, true, false]
ask C 8 => false
settle C 7 => true
ask C 7 => true";
