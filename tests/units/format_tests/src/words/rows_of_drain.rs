//! The words of `drain`.

/// What the words of `drain` ask for: a receiver, of the collector with its token, its channel and how often it is asked, and a place.
pub const DRAINS: &str = r#"drain relp => drain relp -, a device
drain lumberjack => drain lumberjack -, a device
drain -- relp => drain relp -, a device
drain lumberjack -- => drain lumberjack -, a device
drain relp p => drain relp (p), a device
drain relp 127.0.0.1:2514 => drain relp (127.0.0.1:2514), a device
drain lumberjack logs.example:5044 => drain lumberjack (logs.example:5044), a device
drain relp - => drain relp (-), a device
drain relp - -- => drain relp (-), a device
drain relp p -- => drain relp (p), a device
drain relp relp => drain relp (relp), a device
drain relp -- p => drain relp (p), a device
drain relp -- -x => drain relp (-x), a device
drain relp -- -- => drain relp (--), a device
drain -- relp --to => drain relp (--to), a device
drain -- lumberjack p => drain lumberjack (p), a device
drain --polls 0000000007 lumberjack => drain lumberjack -, a device
drain relp --out-token $T --polls=3 p => drain relp (p), a device
drain relp --out-channel $A -- --polls => drain relp (--polls), a device
drain hec --out-token $T --out-channel $A => drain hec $T $A 60 -, a device
drain hec 127.0.0.1:8088 --out-token $T --out-channel=$A => drain hec $T $A 60 (127.0.0.1:8088), a device
drain --out-channel=$A --out-token $T -- hec -x => drain hec $T $A 60 (-x), a device
drain hec --polls 60 --out-channel=$A p --out-token $T => drain hec $T $A 60 (p), a device
drain hec --polls=1 --out-token $A --out-channel $A => drain hec $A $A 1 -, a device
drain hec --polls 1000 --out-token $A --out-channel $T => drain hec $A $T 1000 -, a device
drain relp --polls=1000 => drain relp -, a device"#;

/// Words of `drain` that are no command, and why they are none.
pub const NO_DRAINS: &str = r#"drain => a word is missing
drain hec => hec: --out-token is needed
drain hec p => hec: --out-token is needed
drain -- hec => hec: --out-token is needed
drain hec --out-channel $A => hec: --out-token is needed
drain hec p --out-token $T => hec: --out-channel is needed
drain hec --out-token zz --out-channel $A => --out-token: no GUID
drain hec --out-token $T --out-channel= => --out-channel: no GUID
drain relp --out-token zz => --out-token: no GUID
drain relp --out-channel zz => --out-channel: no GUID
drain relp p --polls 0 => --polls: 1 to 1000
drain relp --polls 1001 => --polls: 1 to 1000
drain relp --polls 00000000060 => --polls: 1 to 1000
drain relp --polls=+6 => --polls: 1 to 1000
drain relp --polls= => --polls: 1 to 1000
drain relp --polls=6 --polls=6 => an option is given twice
drain relp --out-token => an option has no value
drain relp --token $T => unknown word or option
drain Relp => PROTO: relp, lumberjack or hec
drain '' => PROTO: relp, lumberjack or hec
drain p => PROTO: relp, lumberjack or hec
drain p relp => PROTO: relp, lumberjack or hec
drain relp '' => PLACE: empty
drain relp -- '' => PLACE: empty
drain -- relp '' => PLACE: empty
drain relp -x => unknown word or option
drain relp -1 => unknown word or option
drain relp --to => unknown word or option
drain relp -x -- => unknown word or option
drain relp p q => unknown word or option
drain relp p -- q => unknown word or option
drain relp -- p q => unknown word or option
drain -- relp p -- => unknown word or option
drain -- -- relp => PROTO: relp, lumberjack or hec
drain -- => a word is missing
drain -- -- => PROTO: relp, lumberjack or hec"#;
