//! Numbers that become known out of order, and changes that are stopped.

/// The cursor, the stretches and what is pending after each mark.
pub(crate) const MARKS: &str = r#"- five entries, of which numbers become known out of order
zeros 20480
format 2 4096 = done
open keep = run 0
take relp 1, relp 2 = taken 0 2
take relp 3 = taken 2 1
take relp 4, relp 5 = taken 3 2
again raise = same
mark 3 4 1 2 = done
known = 0 1 2 3 4
pending 0 100 = 0 relp 1, 2 relp 3, 4 relp 5
again raise = same
- nothing new, and a stretch of no number
mark 1 2 4 4 = done
known = 0 1 2 3 4
pending 0 100 = 0 relp 1, 2 relp 3, 4 relp 5
again raise = same
confirm 0 = done
known = 0 1 2 3 4
pending 0 100 = 0 relp 1, 2 relp 3, 4 relp 5
again raise = same
- the cursor passes over a stretch that it reaches
mark 0 1 0 0 = done
known = 2 3 4
pending 0 100 = 2 relp 3, 4 relp 5
again raise = same
mark 2 3 0 0 = done
known = 4
pending 0 100 = 4 relp 5
again raise = same
take relp 9 = taken 5 1
known = 4
pending 0 100 = 4 relp 5, 5 relp 9
again raise = same
mark 5 6 5 6 = done
known = 4 5 6
pending 0 100 = 4 relp 5
again raise = same
confirm 5 = done
known = 6
pending 0 100 = nothing
again raise = same
confirm 2 = done
known = 6
pending 0 100 = nothing
again raise = same

- no more than 240 stretches are kept; those that would be more are passed over
plain 1 65536 raise = run 1
pairs 300
odd 300
counts = 0 240 480 360
mark 0 1 481 482 = done
counts = 2 240 482 358

- a mark of nothing new makes no call of the disk: the register isn't written
zeros 20480
format 2 4096 = done
open keep = run 0
take relp 1, relp 2 = taken 0 2
mark 1 2 1 1 = done
ordinal = 2
mark = done
mark 1 2 0 0 = done
ordinal = 2
confirm 0 = done
ordinal = 2
"#;

/// Wherever the machine dies, what was there is there, and all of the change or none.
pub(crate) const CHANGES: &str = r#"- a group in the active slot
zeros 20480
format 2 4096 = done
open keep = run 0
take relp 7 = taken 0 1
shut
stops 4 | 0 1: 0 relp 7 | 0 3: 0 relp 7, 1 relp 8, 2 relp 9 | take relp 8, relp 9

- in a closed one
zeros 20480
format 2 4096 = done
open keep = run 0
take relp 2000 = taken 0 1
shut
stops 8 | 0 1: 0 relp 2000 | 0 2: 0 relp 2000, 1 relp 2003 | take relp 2003

- in one that is shut before
zeros 20480
format 2 4096 = done
open keep = run 0
take relp 2000 = taken 0 1
take relp 2003 = taken 1 1
confirm 1 = done
shut
stops 10 | 1 2: 1 relp 2003 | 1 3: 1 relp 2003, 2 relp 2001 | take relp 2001

- the other cell is closed, and open
zeros 20480
format 2 4096 = done
open keep = run 0
take relp 7, relp 8 = taken 0 2
shut
stops 4 | 0 2: 0 relp 7, 1 relp 8 | 1 2: 1 relp 8 | confirm 1
zeros 20480
format 2 4096 = done
open keep = run 0
take relp 7, relp 8 = taken 0 2
confirm 1 = done
shut
stops 6 | 1 2: 1 relp 8 | 2 2: nothing | confirm 2

- numbers above the cursor, and more of them
zeros 20480
format 2 4096 = done
open keep = run 0
take relp 7, relp 8 = taken 0 2
take relp 9 = taken 2 1
shut
stops 4 | 0 3: 0 relp 7, 1 relp 8, 2 relp 9 | 0 3: 0 relp 7, 2 relp 9 | mark 1 2 2 2
zeros 20480
format 2 4096 = done
open keep = run 0
take relp 7, relp 8 = taken 0 2
take relp 9 = taken 2 1
mark 1 2 1 1 = done
shut
stops 6 | 0 3: 0 relp 7, 2 relp 9 | 0 3: 0 relp 7 | mark 2 3 0 0
"#;
