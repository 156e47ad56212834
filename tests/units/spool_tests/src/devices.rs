//! What a device stands for, and where it breaks a rule of the layout.

/// A device and pieces over it, and what an opening finds: where its slots are, or the place of the first rule
/// that is broken.
pub(crate) const DEVICES: &str = r#"- a device of two slots that hold an entry each
zeros 20480
put 0 RLBSPOOL%00%00%00%02%00%00%00%00%00%00%10%00
put 4096 %01%00%00%00%00%00%00%00%01%00%00%00%11%01%00%00%00%00%00%00%00%03%00%00%00%00%00%00%00%01
put 12288 %01%00%00%00%00%00%00%00%01%00%00%00%00%00%00%00%00
put 12305 %01%00%00%00%22%00%00%00%01%01%00%00%00%01%00%00%00%00%00%00%00%00%00%00%00%00%00%00%00%00
put 12335 %00%00%00%02%00%00%00%05hello%00
put 16384 %01%00%00%00%00%00%00%00%02%00%00%00%00%00%00%00%01
put 16401 %01%00%00%00%22%00%00%00%01%01%00%00%00%01%00%00%00%00%00%00%00%00%00%00%00%00%00%00%00%00
put 16431 %00%00%00%02%00%00%00%05hello%00
remember

restore
open keep = run 3
slots = 16384 60 1 1 1 1
- The magic, and the layout
restore
put 7 l
open keep = NotSpool { at: 0 }
restore
put 11 %03
open keep = NotSpool { at: 8 }
restore
put 8 %00%00%00%00
open keep = NotSpool { at: 8 }
restore
put 12 %00%00%00%00%00%00%0f%ff
open keep = NotSpool { at: 8 }
restore
put 7 l
put 11 %03
open keep = NotSpool { at: 0 }
- The cells
restore
put 4096 %00
open keep = NotSpool { at: 4096 }
restore
put 4096 %02
put 11 %03
open keep = NotSpool { at: 8 }
restore
put 8192 %01%00%00%00%00%00%00%00%01
open keep = NotSpool { at: 4096 }
restore
put 4108 %10
open keep = NotSpool { at: 4096 }
restore
put 8192 %01%00%00%00%00%00%00%00%02%00%00%00%11%02
open keep = NotSpool { at: 8192 }
- The groups, before the order of the slots
restore
put 16409 %02
open keep = NotSpool { at: 16401 }
restore
put 16409 %02
put 12313 %00
open keep = NotSpool { at: 12305 }
restore
put 12308 %10
put 16409 %02
open keep = NotSpool { at: 12305 }
restore
put 12314 %06
put 12296 %05
open keep = NotSpool { at: 12305 }
restore
put 4108 %10
put 12314 %06
open keep = NotSpool { at: 4096 }
- The slots in order
restore
put 12288 %00
put 16384 %00
open keep = NotSpool { at: 12288 }
restore
put 16392 %03
open keep = NotSpool { at: 16384 }
restore
put 16392 %01
open keep = NotSpool { at: 16384 }
restore
put 16400 %02
open keep = NotSpool { at: 16384 }
restore
put 12305 %00
open keep = NotSpool { at: 12288 }
restore
put 12296 %02
put 16392 %03
open keep = NotSpool { at: 12288 }
restore
put 12297 %ff%ff%ff%ff%ff%ff%ff%ff
open keep = NotSpool { at: 12288 }
restore
put 12297 %7f%ff%ff%ff%ff%ff%ff%ff
put 16393 %80%00%00%00%00%00%00%00
open keep = NotSpool { at: 16384 }
restore
put 12288 %01%ff%ff%ff%ff%ff%ff%ff%ff
open keep = NotSpool { at: 12288 }
- The cursor
restore
put 4125 %03
open keep = NotSpool { at: 4096 }
restore
put 12304 %05
put 16400 %06
open keep = NotSpool { at: 4096 }
restore
put 4125 %02
put 16401 %00
open keep = NotSpool { at: 4096 }
- An active slot without an entry
restore
put 4125 %01
put 16401 %00
open keep = run 3
slots = 16384 17 1 0 1 1

- a format of this device can be stopped anywhere
restore
format_stops 16384 60 1 1 1 1

- other bytes, and a device that is shorter than its first parts
zeros 20480
open keep = NotSpool { at: 0 }
zeros 12287
put 0 RLBSPOOL%00%00%00%02%00%00%00%00%00%00%10%00
open keep = NotSpool { at: 0 }
zeros 0
open keep = NotSpool { at: 0 }

- a new device, byte for byte
zeros 16384
put 0 RLBSPOOL%00%00%00%01%00%00%00%00%00%00%10%00
put 4096 %01%00%00%00%00%00%00%00%01%00%00%00%13%02
put 12288 %01%00%00%00%00%00%00%00%01
remember
zeros 16384
format 1 4096 = done
equal = yes
open keep = run 0
slots = 12288 17 0 0 0 0

- a device of another length
zeros 100
remember
format 2 4096 = WrongLength { have: 100, want: 20480 }
equal = yes
"#;
