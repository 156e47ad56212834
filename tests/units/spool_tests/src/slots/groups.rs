//! Groups in one slot: their bytes, what is read back, and which calls of the disk they make.
use crate::script::Step;
use crate::slots::benches::{add_group, begun};
use crate::slots::reads::finds;
use crate::words::are;
use edge_memory::{Crash, MemDisk};
use spool_slots::SlotFault;
use std::alloc::Global;
use std::process::Abort;

/// Groups that are added and read back, and slots that are scanned.
pub(crate) const SLOTS: &str =
    r#"- the bytes of a slot of ordinal 1, with one RELP event of connection 4294967296, unit 2 and text `hello`
begin 4096 99
add 4294967296 2 hello = done
slot = 1 0 60 1
left = 4296
holds 100 %01%00%00%00%00%00%00%00%01%00%00%00%00%00%00%00%00%01%00%00%00%22%00%00%00%01%01%00%00%00%01 = yes
holds 131 %00%00%00%00%00%00%00%00%00%00%00%00%00%00%00%00%00%00%00%02%00%00%00%05hello%00 = yes

- three groups are read back, from each entry on, in parts of any size
begin 4096 9999
add 7 1 0, 7 2 300 = done
add 7 3 1 = done
add 7 4 7, 7 5 0, 7 6 2 = done
units 0 1 7 = [1, 2, 3, 4, 5, 6]
units 1 1 7 = [2, 3, 4, 5, 6]
units 2 1 7 = [3, 4, 5, 6]
units 3 1 7 = [4, 5, 6]
units 4 1 7 = [5, 6]
units 5 1 7 = [6]
units 6 1 7 = []

- a scan finds the slot
begin 4096 99
add 7 1 0, 7 2 300 = done
add 7 3 1 = done
slot = 1 0 423 3
left = 4296
scan 4096 = 1 0 423 3

- an exact fit, and a byte more
begin 4096 99
add 7 1 2000 = done
add 7 2 2003 = NoRoom { need: 2041, room: 2040 }
slot = 1 0 2055 1
begin 4096 99
add 7 1 2000 = done
add 7 3 2002 = done
slot = 1 0 4095 2
room = 0

- each rule of a group: no entry after an open gate
zeros 4300
put 100 %01%00%00%00%00%00%00%00%01%00%00%00%00%00%00%00%00%01%00%00%00%22%00%00%00%01%01%00%00%00%01
put 131 %00%00%00%00%00%00%00%00%00%00%00%00%00%00%00%00%00%00%00%02%00%00%00%05hello%00
remember
restore
put 160 %01
scan 4096 = NotSpool { at: 160 }
- the length ends within the entry, one byte after it, and outside the slot
restore
put 121 %21
scan 4096 = NotSpool { at: 117 }
restore
put 121 %23
scan 4096 = NotSpool { at: 117 }
restore
put 118 %01
scan 4096 = NotSpool { at: 117 }
- a count of none, and one too many
restore
put 125 %00
scan 4096 = NotSpool { at: 117 }
restore
put 125 %02
scan 4096 = NotSpool { at: 117 }
- no origin, pairs that are none, a text that is longer
restore
put 126 %06
scan 4096 = NotSpool { at: 117 }
restore
put 126 %02
scan 4096 = NotSpool { at: 117 }
restore
put 154 %06
scan 4096 = NotSpool { at: 117 }
- a closed slot, and a gate that isn't open
restore
put 100 %ff
scan 4096 = closed
restore
put 160 %02
scan 4096 = 1 0 60 1
"#;

/// Which calls of the disk a group makes.
pub(crate) const CALLS: &str =
    r#"- a group of three events of 131,072 bytes is written in seven pieces. A write that fails leaves the first half of its piece: six
- have 65,536 bytes, the last one has 96. The first four calls are those of `begin`
begin 2097152 4
add 7 1 131072, 7 2 131072, 7 3 131072 = DiskFault
left = 2097352
holds 32885 x%00 = yes
begin 2097152 5
add 7 1 131072, 7 2 131072, 7 3 131072 = DiskFault
left = 2097352
holds 98421 x%00 = yes
begin 2097152 6
add 7 1 131072, 7 2 131072, 7 3 131072 = DiskFault
left = 2097352
holds 163957 x%00 = yes
begin 2097152 7
add 7 1 131072, 7 2 131072, 7 3 131072 = DiskFault
left = 2097352
holds 229493 x%00 = yes
begin 2097152 8
add 7 1 131072, 7 2 131072, 7 3 131072 = DiskFault
left = 2097352
holds 295029 x%00 = yes
begin 2097152 9
add 7 1 131072, 7 2 131072, 7 3 131072 = DiskFault
left = 2097352
holds 360565 x%00 = yes
begin 2097152 10
add 7 1 131072, 7 2 131072, 7 3 131072 = DiskFault
left = 2097352
holds 393381 x%00 = yes
- then come a sync, the gate and a sync. The last byte of the third text stands at 393,428 of the disk; it is durable from the first
- sync on
begin 2097152 11
add 7 1 131072, 7 2 131072, 7 3 131072 = DiskFault
left = 2097352
holds 117 %00 = yes
holds 393428 x%00 = yes
crash = 2097352
holds 393428 %00 = yes
begin 2097152 12
add 7 1 131072, 7 2 131072, 7 3 131072 = DiskFault
left = 2097352
holds 117 %00 = yes
holds 393428 x%00 = yes
crash = 2097352
holds 393428 x = yes
begin 2097152 13
add 7 1 131072, 7 2 131072, 7 3 131072 = DiskFault
left = 2097352
holds 117 %01 = yes
holds 393428 x%00 = yes
crash = 2097352
holds 393428 x = yes
begin 2097152 14
add 7 1 131072, 7 2 131072, 7 3 131072 = done
left = 2097352
holds 117 %01 = yes
holds 393428 x%00 = yes
crash = 2097352
holds 393428 x = yes

- a group of one piece takes four calls: it needs up to 65,536 bytes
failing 7 1 0 = 0 1 2 3
failing 7 1 962 = 0 1 2 3
failing 7 1 65498 = 0 1 2 3
failing 7 1 65499 = 0 1 2 3 4
"#;

/// How often the disk is read, and how many bytes.
pub(crate) const READS: &str =
    r#"- a scan of a closed slot makes one small read; of an open one with no entry, or with a small group, it makes two
zeros 20200
scan_cost 20000 = 1 17
begin 20000 9999
left = 20200
scan_cost 20000 = 2 4113
add 7 1 100, 7 2 100, 7 3 100, 7 4 100 = done
left = 20200
scan_cost 20000 = 2 4113

- a scan of full groups reads no byte again
begin 20000 9999
adds 25 7 1 100, 7 2 100, 7 3 100, 7 4 100 = done
slot = 1 0 13142 100
left = 20200
scan_bytes 20000 = 20000
begin 600000 9999
add 7 1 131072, 7 2 131072, 7 3 131072, 7 4 131072 = done
slot = 1 0 524430 4
left = 600200
scan_bytes 600000 = 600000

- 25 groups of four entries: 13,126 bytes after the slot's head, the last gate included. Read in parts of so many, and then the last
- entry alone: on the way to it 312 bytes between two heads are not read
begin 20000 9999
adds 25 7 1 100, 7 2 100, 7 3 100, 7 4 100 = done
read_cost 0 100 = 100 3 13126
read_cost 0 50 = 100 4 18847
read_cost 0 20 = 100 5 19010
read_cost 99 1 = 1 4 12944
"#;

/// Whether these of the first nine calls after those of `begin` fail a group where they fail.
pub(crate) fn fails(rt: &impl Abort, alloc: Global, step: Step<'_>) -> bool {
    let mut failing = Vec::new(alloc);
    for call in 0..9 {
        let bench = begun(rt, alloc, 200_000, 4 + call, 0);
        let (answer, _) = add_group(rt, alloc, bench, step.rest);
        if answer == Err(SlotFault::DiskFault) {
            failing.push(call).expect(rt, "memory");
        }
    }
    are(step.want, &failing)
}

// What a disk has after a second group that was stopped after so many calls.
fn stopped(rt: &impl Abort, alloc: Global, calls: u64) -> MemDisk {
    let bench = begun(rt, alloc, 4096, 99, calls);
    let (_, one) = add_group(rt, alloc, bench, "1 1 one");
    let (_, two) = add_group(rt, alloc, one, "1 2 two, 1 3 three");
    two.disk
}

// Whether a second group that is stopped after 8 to 12 calls stands from so many calls on, and not before.
fn stands_from(rt: &impl Abort, alloc: Global, choice: Crash, whole: u64) -> bool {
    for calls in 8..13 {
        let left = stopped(rt, alloc, calls).crash(choice);
        let want = if calls >= whole {
            "1 0 133 3"
        } else {
            "1 0 58 1"
        };
        if !finds(rt, alloc, left.bytes(), want) {
            return false;
        }
    }
    true
}

/// Whether a second group that is stopped stands whole or not at all. It makes the calls 8 to 11, and each kind of
/// crash leaves it from so many calls on.
pub(crate) fn a_stop_leaves_a_group_or_none(rt: &impl Abort, alloc: Global) -> bool {
    stands_from(rt, alloc, Crash::Synced, 12)
        && stands_from(rt, alloc, Crash::Written, 11)
        && stands_from(rt, alloc, Crash::Filled(0), 12)
        && stands_from(rt, alloc, Crash::Filled(1), 10)
        && stands_from(rt, alloc, Crash::Filled(255), 12)
}
