//! The words of `move`.

/// What they ask for: two devices, the second one in parentheses, and the tag.
pub const MOVES: &str = r#"move /var/other 0 => two devices, (/var/other), tag 0
move b 4294967295 => two devices, (b), tag 4294967295
move b 0000000007 => two devices, (b), tag 7
move '' 1 => two devices, (), tag 1
move - 1 => two devices, (-), tag 1
move -- --b 1 => two devices, (--b), tag 1
move b -- 1 => two devices, (b), tag 1
move b 1 -- => two devices, (b), tag 1
move -- -- 1 => two devices, (--), tag 1
move 1 2 => two devices, (1), tag 2
move move 2 => two devices, (move), tag 2"#;

/// Words that move nothing, and why.
pub const NO_MOVES: &str = r#"move => a word is missing
move b => a word is missing
move -- b => a word is missing
move b 4294967296 => TAG: 0 to 4294967295
move b 00000000001 => TAG: 0 to 4294967295
move b +1 => TAG: 0 to 4294967295
move b -1 => unknown word or option
move b -- -1 => TAG: 0 to 4294967295
move b '' => TAG: 0 to 4294967295
move b x => TAG: 0 to 4294967295
move b 1 2 => unknown word or option
move --target b 1 => unknown word or option
move b --tag 1 => unknown word or option
move --b 1 => unknown word or option
move b 1 --group => unknown word or option
Move b 1 => unknown word or option
moved b 1 => unknown word or option
-- move b 1 => unknown word or option
list move b 1 => unknown word or option"#;
