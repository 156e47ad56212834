//! What an opening finds, what is read back in parts, and where it stands on the device.

/// Runs and ordinals, parts of what is pending, and bytes of the device.
pub(crate) const OPENINGS: &str = r#"- the run, and the register's ordinal, at their ends
zeros 20480
format 2 4096 = done
remember
restore
open keep = run 0
again keep = same
restore
open raise = run 1
again keep = same
restore
put 4110 %00%00%00%00%00%1f%ff%ff
put 4117 %fe
open raise = run 2097151
again keep = same
restore
put 4110 %00%00%00%00%00%1f%ff%ff
open keep = run 2097151
again keep = same
restore
put 4110 %00%00%00%00%00%1f%ff%ff
open raise = RunsSpent { run: 2097151 }
restore
put 4097 %80%00%00%00%00%00%00%00
open keep = run 0
again keep = same
restore
put 4097 %80%00%00%00%00%00%00%00
open raise = Worn { ordinal: 9223372036854775808 }
restore
put 4097 %7f%ff%ff%ff%ff%ff%ff%ff
open raise = run 1
again keep = same
restore
put 4110 %00%00%00%00%00%1f%ff%ff
put 4097 %80%00%00%00%00%00%00%00
open raise = RunsSpent { run: 2097151 }
restore
put 4110 %00%00%00%00%00%1f%ff%ff
put 0 r
open raise = NotSpool { at: 0 }
restore
put 0 %00%00%00%00%00%00%00%00
open keep = NotSpool { at: 0 }

- parts of what is pending, as the cursor moves
zeros 24576
format 3 4096 = done
open raise = run 1
take relp 10, relp 20 = taken 0 2
take relp 30 = taken 2 1
take relp 4000 = taken 3 1
take relp 4001 = taken 4 1
confirm 0 = done
pending 0 100 = 0 relp 10, 1 relp 20, 2 relp 30, 3 relp 4000, 4 relp 4001
pending 0 5 = 0 relp 10, 1 relp 20, 2 relp 30, 3 relp 4000, 4 relp 4001
pending 0 4 = 0 relp 10, 1 relp 20, 2 relp 30, 3 relp 4000
pending 0 0 = nothing
pending 1 2 = 1 relp 20, 2 relp 30
pending 2 2 = 2 relp 30, 3 relp 4000
pending 4 3 = 4 relp 4001
pending 5 3 = nothing
confirm 1 = done
pending 0 1 = 1 relp 20
confirm 3 = done
pending 0 100 = 3 relp 4000, 4 relp 4001
pending 4 100 = 4 relp 4001
confirm 5 = done
pending 0 100 = nothing

- far on in a slot
plain 1 65536 raise = run 1
singles 300
pending 290 3 = 290 relp 290, 291 relp 291, 292 relp 292

- where groups and cells stand on the device
zeros 20480
format 2 4096 = done
open keep = run 0
take relp 2000 = taken 0 1
take relp 2002 = taken 1 1
shut
holds 16383 %00%00 = yes
holds 16381 12%00 = yes
- a byte more, and the second group stands in the other slot: ordinal 2, first number 1
zeros 20480
format 2 4096 = done
open keep = run 0
take relp 2000 = taken 0 1
take relp 2003 = taken 1 1
shut
holds 16384 %01%00%00%00%00%00%00%00%02%00%00%00%00%00%00%00%01%01 = yes
- the first slot is shut and begun again: ordinal 3, first number 2
zeros 20480
format 2 4096 = done
open keep = run 0
take relp 2000 = taken 0 1
take relp 2003 = taken 1 1
confirm 1 = done
take relp 2000 = taken 2 1
shut
holds 12288 %01%00%00%00%00%00%00%00%03%00%00%00%00%00%00%00%02%01 = yes
- the second cell: ordinal 2, run 0, cursor 1, no stretch; and one with a stretch
zeros 20480
format 2 4096 = done
open keep = run 0
take relp 2000 = taken 0 1
confirm 1 = done
shut
holds 8192 %01%00%00%00%00%00%00%00%02%00%00%00%13%02%00%00%00%00%00%00%00%00 = yes
holds 8214 %00%00%00%00%00%00%00%01%00%00 = yes
zeros 20480
format 2 4096 = done
open keep = run 0
take relp 5, relp 6 = taken 0 2
mark 1 2 1 1 = done
shut
holds 8192 %01%00%00%00%00%00%00%00%02%00%00%00%23%02%00%00%00%00%00%00%00%00 = yes
holds 8214 %00%00%00%00%00%00%00%00%00%01 = yes
holds 8224 %00%00%00%00%00%00%00%01%00%00%00%00%00%00%00%02 = yes
"#;
