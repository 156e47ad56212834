//! The words of `replay`.

/// What the words of `replay` ask for: a protocol, the token and the token with acks.
pub const REPLAYS: &str = r#"replay relp => replay Relp - -, a device
replay lumberjack => replay Lumberjack - -, a device
replay hec => replay Hec - -, a device
replay hec -- => replay Hec - -, a device
replay -- hec => replay Hec - -, a device
replay relp --token $T => replay Relp $T -, a device
replay lumberjack --ack-token $A => replay Lumberjack - $A, a device
replay hec --token $T => replay Hec $T -, a device
replay hec --token=$T => replay Hec $T -, a device
replay --token $T hec => replay Hec $T -, a device
replay --token=$T -- hec => replay Hec $T -, a device
replay hec --ack-token $A => replay Hec - $A, a device
replay hec --ack-token=$A -- => replay Hec - $A, a device
replay hec --token $T --ack-token $A => replay Hec $T $A, a device
replay --ack-token $A hec --token $T => replay Hec $T $A, a device
replay --ack-token=$A --token $T hec => replay Hec $T $A, a device
replay hec --token $T --ack-token $T => replay Hec $T $T, a device
replay hec --token 11111111222233334444555555555555 => replay Hec $T -, a device
replay hec --token {11111111-2222-3333-4444-555555555555} => replay Hec $T -, a device
replay hec --ack-token=urn:uuid:AAAAAAAA-2222-3333-4444-555555555555 => replay Hec - $A, a device"#;

/// Words of `replay` that are no command, and why they are none.
pub const NO_REPLAYS: &str = r#"replay => a word is missing
replay x => PROTO: relp, lumberjack or hec
replay lumber => PROTO: relp, lumberjack or hec
replay Lumberjack => PROTO: relp, lumberjack or hec
replay HEC => PROTO: relp, lumberjack or hec
replay relp x => unknown word or option
replay relp relp => unknown word or option
replay lumberjack relp => unknown word or option
replay relp -- relp => unknown word or option
replay -- relp relp => unknown word or option
replay -- => a word is missing
replay -- -- => PROTO: relp, lumberjack or hec
replay -- hec -- => unknown word or option
replay --token $T => a word is missing
replay hec --token => an option has no value
replay hec --token= => --token: no GUID
replay hec --token zz => --token: no GUID
replay hec --token=zz => --token: no GUID
replay hec --token = => --token: no GUID
replay hec --token 1111111122223333444455555555555 => --token: no GUID
replay hec --token $T --token $T => an option is given twice
replay hec --token $T --token=$A => an option is given twice
replay hec --ack-token=$A --ack-token $A => an option is given twice
replay hec --token --ack-token $A => an option has no value
replay hec --token -- $T => unknown word or option
replay hec -- --token $T => unknown word or option
replay -- hec --token $T => unknown word or option
replay -- --token=$T hec => unknown word or option
replay hec --tok $T => unknown word or option
replay hec -t $T => unknown word or option
replay hec --as json => unknown word or option
replay hec --tokens $T => unknown word or option
replay hec $T => unknown word or option"#;
