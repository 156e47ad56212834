//! The words of `format`, `list` and `load`, and words that are no command.

/// What the words of `format`, `list` and `load` ask for. A device of so many bytes is made where there is none.
pub const COMMANDS: &str = r#"format 2 4096 => format 2 4096, a device of 20480
format 01 0000004096 => format 1 4096, a device of 16384
format 1024 1073741824 => format 1024 1073741824, a device of 1099511640064
format -- 2 4096 => format 2 4096, a device of 20480
format 2 -- 4096 => format 2 4096, a device of 20480
format 2 4096 -- => format 2 4096, a device of 20480
list => list plain, a device
list --as relp => list text, a device
list --as json => list json, a device
list --as hec => list hec, a device
list --as=json => list json, a device
list -- => list plain, a device
list --as relp -- => list text, a device
list --as=hec -- => list hec, a device
load relp 1 2 => load Relp 1 2, no device
load lumberjack 2147483647 100000 => load Lumberjack 2147483647 100000, no device
load hec 0 -- 0 => load Hec 0 0, no device
load hec 0000000007 0000100000 => load Hec 7 100000, no device"#;

/// Words that are no command, and why they are none.
pub const NO_COMMANDS: &str = r#"=> no command is named
- => unknown word or option
'' => unknown word or option
serves => unknown word or option
help => unknown word or option
help list => unknown word or option
--help => unknown word or option
-h => unknown word or option
--version => unknown word or option
list --help => unknown word or option
list -h => unknown word or option
list help => unknown word or option
list list => unknown word or option
format => a word is missing
format 1 => a word is missing
format 0 4096 => SLOTS: 1 to 1024
format 1025 4096 => SLOTS: 1 to 1024
format 1 4095 => SIZE: 4096 to 1073741824
format 1 1073741825 => SIZE: 4096 to 1073741824
format 1 00000004096 => SIZE: 4096 to 1073741824
format +1 4096 => SLOTS: 1 to 1024
format 1 -4096 => unknown word or option
format '' 4096 => SLOTS: 1 to 1024
format 1 4096 x => unknown word or option
format 1 0x1000 => SIZE: 4096 to 1073741824
format -- 2 4096 -- => unknown word or option
format --slots 2 4096 => unknown word or option
list --as => an option has no value
list relp => unknown word or option
list --as lumberjack => --as: relp, json or hec
list --as '' => --as: relp, json or hec
list --as RELP => --as: relp, json or hec
list --as= => --as: relp, json or hec
list --as=-x => --as: relp, json or hec
list --as=json --as=json => an option is given twice
list --as=json relp => unknown word or option
list -- --as json => unknown word or option
list --group => unknown word or option
load --group relp 1 2 => unknown word or option
list --as -- json => unknown word or option
list --as -- => an option has no value
list -- -- => unknown word or option
list --a json => unknown word or option
list - => unknown word or option
list --as hec x => unknown word or option
- list => unknown word or option
-- list => unknown word or option
--as hec list => unknown word or option
List => unknown word or option
relp replay => unknown word or option
--token $T replay hec => unknown word or option
load relp 1 => a word is missing
load relp 2147483648 1 => NUMBER: 0 to 2147483647
load relp 1 100001 => COUNT: 0 to 100000
load x 1 2 => PROTO: relp, lumberjack or hec
load relp 1 2 3 => unknown word or option"#;
