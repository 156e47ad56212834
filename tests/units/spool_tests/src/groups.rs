//! Groups that are taken, numbers that are confirmed, and calls of the disk that fail.

/// What fits, and where; what is refused, and with which numbers.
pub(crate) const GROUPS: &str = r#"- both in the first slot, to its last byte but the closed gate
zeros 20480
format 2 4096 = done
open keep = run 0
take relp 2000 = taken 0 1
room = 0 2040
take json 2002 = taken 1 1
room = 0 0
pending 0 100 = 0 relp 2000, 1 json 2002
numbers = 0 0 2
again keep = same
again raise = same

- the second is a byte too long for it; then no slot is free until the first entry is confirmed
zeros 20480
format 2 4096 = done
open keep = run 0
take relp 2000 = taken 0 1
room = 0 2040
take hec 2003 = taken 1 1
room = 1 2037
take raw 2000 = Full { need: 2038, room: 2037 }
room = 1 2037
confirm 1 = done
room = 1 2037
take raw 2000 = taken 2 1
room = 0 2040
pending 0 100 = 1 hec 2003, 2 raw 2000
numbers = 1 1 3
again keep = same
again raise = same

- the active slot isn't free, though all its entries are confirmed
zeros 16384
format 1 4096 = done
open keep = run 0
take relp 2000 = taken 0 1
take relp 2003 = Full { need: 2041, room: 2040 }
confirm 1 = done
take relp 2003 = Full { need: 2041, room: 2040 }
take relp 2002 = taken 1 1
pending 0 100 = 1 relp 2002
numbers = 0 1 2
again keep = same

- the largest group, and one byte more
zeros 20480
format 2 4096 = done
open keep = run 0
take hec 4041 = TooLarge { need: 4079, most: 4078 }
room = 0 4078
pending 0 100 = nothing
take hec 4040 = taken 0 1
room = 0 0
take relp 2000, relp 2012 = TooLarge { need: 4079, most: 4078 }
take relp 2000, relp 2011 = taken 1 2
pending 0 100 = 0 hec 4040, 1 relp 2000, 2 relp 2011
numbers = 0 0 3
again keep = same
again raise = same

- an event like an earlier one is stored again, and nothing to take is no group
zeros 20480
format 2 4096 = done
open keep = run 0
take = taken 0 0
take relp 5 = taken 0 1
take relp 5 = taken 1 1
take = taken 2 0
take relp 5, relp 5 = taken 2 2
confirm 0 = done
pending 0 100 = 0 relp 5, 1 relp 5, 2 relp 5, 3 relp 5
numbers = 0 0 4
again keep = same

- three slots, the first with two groups; the cursor is moved, and doesn't go back
zeros 24576
format 3 4096 = done
open keep = run 0
take relp 10, relp 20 = taken 0 2
take relp 30 = taken 2 1
take relp 4000 = taken 3 1
take relp 4001 = taken 4 1
take relp 4002 = Full { need: 4040, room: 39 }
confirm 2 = done
confirm 1 = done
take relp 4002 = Full { need: 4040, room: 39 }
confirm 3 = done
take relp 4002 = taken 5 1
pending 0 100 = 3 relp 4000, 4 relp 4001, 5 relp 4002
numbers = 3 3 6
again keep = same

- a number is left; then no more, which is said before the want of room
zeros 16384
format 1 4096 = done
put 12297 %7f%ff%ff%ff%ff%ff%ff%ff
put 4118 %7f%ff%ff%ff%ff%ff%ff%ff
open keep = run 0
take relp 1, relp 1 = Spent { end: 9223372036854775807 }
take relp 4000, relp 4000 = TooLarge { need: 8067, most: 4078 }
take relp 4000 = taken 9223372036854775807 1
take relp 4000 = Spent { end: 9223372036854775808 }
take = taken 9223372036854775808 0
pending 0 100 = 9223372036854775807 relp 4000
numbers = 9223372036854775807 9223372036854775807 9223372036854775808
again keep = same

- the register was written as often as it can be
zeros 16384
format 1 4096 = done
put 4097 %80%00%00%00%00%00%00%00
open keep = run 0
take relp 11 = taken 0 1
confirm 1 = Worn { ordinal: 9223372036854775808 }
confirm 0 = done
take relp 12 = taken 1 1
pending 0 100 = 0 relp 11, 1 relp 12
numbers = 0 0 2
again keep = same

- it can be written once more
zeros 16384
format 1 4096 = done
put 4097 %7f%ff%ff%ff%ff%ff%ff%ff
open keep = run 0
take relp 11, relp 12 = taken 0 2
confirm 1 = done
confirm 2 = Worn { ordinal: 9223372036854775808 }
pending 0 100 = 1 relp 12
numbers = 0 1 2
again keep = same
"#;

/// A call of the disk fails: what was in doubt is found out by the next call.
pub(crate) const FAILING: &str = r#"- the write of a group fails: the group isn't there
zeros 20480
format 2 4096 = done
open keep 0 = run 0
take relp 11 = DiskFault, in doubt
room = 0 4078
take raw 22 = taken 0 1
room = 0 4018
pending 0 100 = 0 raw 22
numbers = 0 0 1
again keep = same
again raise = same

- its sync fails: the group isn't there
zeros 20480
format 2 4096 = done
open keep 1 = run 0
take relp 11 = DiskFault, in doubt
room = 0 4078
take raw 22 = taken 0 1
room = 0 4018
pending 0 100 = 0 raw 22
numbers = 0 0 1
again keep = same
again raise = same

- the write of its gate fails: the group isn't there
zeros 20480
format 2 4096 = done
open keep 2 = run 0
take relp 11 = DiskFault, in doubt
room = 0 4078
take raw 22 = taken 0 1
room = 0 4018
pending 0 100 = 0 raw 22
numbers = 0 0 1
again keep = same
again raise = same

- the sync after the gate fails: the group is there
zeros 20480
format 2 4096 = done
open keep 3 = run 0
take relp 11 = DiskFault, in doubt
room = 0 4078
take raw 22 = taken 1 1
room = 0 3969
pending 0 100 = 0 relp 11, 1 raw 22
numbers = 0 0 2
again keep = same
again raise = same

- the next group's write fails
zeros 20480
format 2 4096 = done
open keep 4 = run 0
take relp 11 = taken 0 1
take relp 22 = DiskFault, in doubt
pending 0 100 = 0 relp 11
numbers = 0 0 1
again keep = same

- the write of a cell's gate fails, and the sync after it
zeros 20480
format 2 4096 = done
open keep 6 = run 0
take relp 11 = taken 0 1
confirm 1 = DiskFault, in doubt
pending 0 100 = 0 relp 11
numbers = 0 0 1
again keep = same
zeros 20480
format 2 4096 = done
open keep 7 = run 0
take relp 11 = taken 0 1
confirm 1 = DiskFault, in doubt
pending 0 100 = nothing
numbers = 0 1 1
again keep = same
zeros 20480
format 2 4096 = done
open keep 6 = run 0
take relp 11 = taken 0 1
confirm 1 = DiskFault, in doubt
confirm 1 = done
pending 0 100 = nothing
numbers = 0 1 1
again keep = same

- three of the longest texts: seven writes, a sync, the gate's write and a sync. The first sync fails
zeros 4206592
format 2 2097152 = done
open keep 7 = run 0
take relp 131072, json 131072, raw 131072 = DiskFault, in doubt
room = 0 2097134
take hec 5 = taken 0 1
room = 0 2097091
pending 0 10 = 0 hec 5
again raise = same

- the tenth call fails: the group is there
zeros 4206592
format 2 2097152 = done
open keep 9 = run 0
take relp 131072, json 131072, raw 131072 = DiskFault, in doubt
room = 0 2097134
take hec 5 = taken 3 1
room = 0 1703779
pending 0 10 = 0 relp 131072, 1 json 131072, 2 raw 131072, 3 hec 5
again raise = same

- the call after the tenth is the next take's
zeros 4206592
format 2 2097152 = done
open keep 10 = run 0
take relp 131072, json 131072, raw 131072 = taken 0 3
room = 0 1703822
take hec 5 = DiskFault, in doubt
room = 0 1703822
pending 0 10 = 0 relp 131072, 1 json 131072, 2 raw 131072
again raise = same
"#;
