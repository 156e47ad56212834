//! What two passes are told at one desk, worked out by hand.

// What the first pass's take answers; the id that it is issued; whether that is told as settled; what the other's take
// answers; what it reads then, a line for each entry with its number, connection and index; whether its confirm was done;
// whether the id is told to it; the end that the first loads, and what it reads; after "closed", what that desk has, its end, and
// whether that is in doubt.
const WHOLE: &str = r#"Ok(Receipt { first: 0, count: 1 })
4294967296
false
Ok(Receipt { first: 1, count: 2 })
0 4294967296 0
1 4362076160 0
2 4362076160 1
true
false
3
2 4362076160 1
closed
2 4362076160 1
3
false
"#;

// The same where the first pass's take failed, and its group isn't there.
const ABSENT: &str = r#"Err(DiskFault)
4294967296
false
Ok(Receipt { first: 0, count: 2 })
0 4362076160 0
1 4362076160 1
true
false
2
0 4362076160 0
1 4362076160 1
closed
0 4362076160 0
1 4362076160 1
2
false
"#;

// Where it failed, and its group is there.
const PRESENT: &str = r#"Err(DiskFault)
4294967296
false
Ok(Receipt { first: 1, count: 2 })
0 4294967296 0
1 4362076160 0
2 4362076160 1
true
false
3
0 4294967296 0
1 4362076160 0
2 4362076160 1
closed
0 4294967296 0
1 4362076160 0
2 4362076160 1
3
false
"#;

// Where the other's take failed at its first call.
const ALONE: &str = r#"Ok(Receipt { first: 0, count: 1 })
4294967296
false
Err(DiskFault)
0 4294967296 0
true
false
1
0 4294967296 0
closed
0 4294967296 0
1
false
"#;

/// Which call of the disk fails, counted from 0 after the opening; how many entries are confirmed; and what is said.
pub(crate) type Row = (u64, u64, &'static str);

/// A take makes four calls: it writes the group with its gate closed, syncs, opens the gate, and syncs. Where one fails the take
/// is refused, and the desk is in doubt: the next take finds the group whole or not at all, and takes the next number. A gate of
/// which the write failed stays closed. One that was written and not synced is read as open.
pub(crate) const ROWS: [Row; 6] = [
    (0, 0, ABSENT),
    (1, 0, ABSENT),
    (2, 0, ABSENT),
    (3, 0, PRESENT),
    (4, 0, ALONE),
    (1000, 2, WHOLE),
];
