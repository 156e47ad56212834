//! The words of `serve`.

/// What the words of `serve` ask for: the places of RELP, of Lumberjack and of the collector, `status` and the place of those who ask
/// where that is given, workers, after `connections` where that option says how many, connections of each, the token, the token with
/// acks, `listed` and the tokens of `--tokens` where that is given, `group` where that is, and the receiver with its place.
pub const SERVES: &str = r#"serve --relp p => serve (p) - - 4 67108864 - - -, a device
serve --lumberjack logs.example:5044 => serve - (logs.example:5044) - 4 67108864 - - -, a device
serve --hec=0.0.0.0:8088 => serve - - (0.0.0.0:8088) 4 67108864 - - -, a device
serve --hec h --relp=r --lumberjack l => serve (r) (l) (h) 4 67108864 - - -, a device
serve --relp p --hec p => serve (p) - (p) 4 67108864 - - -, a device
serve --relp p -- => serve (p) - - 4 67108864 - - -, a device
serve --relp - => serve (-) - - 4 67108864 - - -, a device
serve --relp=-x => serve (-x) - - 4 67108864 - - -, a device
serve --relp p --workers 1 => serve (p) - - 1 67108864 - - -, a device
serve --workers=0000000016 --relp=p => serve (p) - - 16 67108864 - - -, a device
serve --relp p --connections 1 => serve (p) - - connections 1 1048576 - - -, a device
serve --connections=0000001024 --hec=h => serve - - (h) connections 1024 1048576 - - -, a device
serve --connections 256 --group --relp p --talks=7 => serve (p) - - connections 256 7 - - group -, a device
serve --relp p --talks 1048576 --connections 2 => serve (p) - - connections 2 1048576 - - -, a device
serve --talks 1 --relp p => serve (p) - - 4 1 - - -, a device
serve --relp p --talks=67108864 => serve (p) - - 4 67108864 - - -, a device
serve --hec h --token $T --ack-token=$A => serve - - (h) 4 67108864 $T $A -, a device
serve --relp p --ack-token $A => serve (p) - - 4 67108864 - $A -, a device
serve --relp p --status s => serve (p) - - status (s) 4 67108864 - - -, a device
serve --status=127.0.0.1:9514 --hec=h => serve - - (h) status (127.0.0.1:9514) 4 67108864 - - -, a device
serve --status=-x --relp p --group => serve (p) - - status (-x) 4 67108864 - - group -, a device
serve --relp p --status p => serve (p) - - status (p) 4 67108864 - - -, a device
serve --hec h --tokens $T => serve - - (h) 4 67108864 - - listed $T -, a device
serve --tokens=$A --group --hec=h => serve - - (h) 4 67108864 - - listed $A group -, a device
serve --relp p --tokens $T => serve (p) - - 4 67108864 - - listed $T -, a device
serve --hec h --tokens {11111111-2222-3333-4444-555555555555} => serve - - (h) 4 67108864 - - listed $T -, a device
serve --relp p --group => serve (p) - - 4 67108864 - - group -, a device
serve --group --relp=p => serve (p) - - 4 67108864 - - group -, a device
serve --group --hec h --lumberjack l --token $T => serve - (l) (h) 4 67108864 $T - group -, a device
serve --group --relp p -- => serve (p) - - 4 67108864 - - group -, a device
serve --relp p --group --forward relp --to d => serve (p) - - 4 67108864 - - group relp (d), a device
serve --relp=--group => serve (--group) - - 4 67108864 - - -, a device
serve --relp p --forward relp --to d => serve (p) - - 4 67108864 - - relp (d), a device
serve --to=d --relp=p --forward=lumberjack --talks=2 --workers=3 => serve (p) - - 3 2 - - lumberjack (d), a device
serve --relp=p --forward=hec --to d --out-token $T --out-channel=$A => serve (p) - - 4 67108864 - - hec $T $A 60 (d), a device
serve --out-channel $T --out-token $A --polls=1000 --to=d --forward=hec --hec=h --token $A => serve - - (h) 4 67108864 $A - hec $A $T 1000 (d), a device
serve --relp p --forward relp --to=d --out-token $T --polls 1 => serve (p) - - 4 67108864 - - relp (d), a device
serve --relp p --out-token $T --out-channel=$A --polls=7 => serve (p) - - 4 67108864 - - -, a device"#;

/// Words of `serve` that are no command, and why they are none.
pub const NO_SERVES: &str = r#"serve => serve: --relp, --lumberjack or --hec is needed
serve -- => serve: --relp, --lumberjack or --hec is needed
serve --workers 1 --talks 1 => serve: --relp, --lumberjack or --hec is needed
serve --token $T => serve: --relp, --lumberjack or --hec is needed
serve --forward relp --to d => serve: --relp, --lumberjack or --hec is needed
serve --relp '' => PLACE: empty
serve --lumberjack= => PLACE: empty
serve --relp p --hec= => PLACE: empty
serve --relp => an option has no value
serve --relp --hec h => an option has no value
serve --status s => serve: --relp, --lumberjack or --hec is needed
serve --relp p --status '' => PLACE: empty
serve --status= --hec h => PLACE: empty
serve --relp p --status => an option has no value
serve --relp p --status s --status=s => an option is given twice
serve --relp p --stat s => unknown word or option
serve --relp p -- --status s => unknown word or option
list --status s => unknown word or option
replay relp --status s => unknown word or option
serve --relp -- p => unknown word or option
serve p => unknown word or option
serve relp p => unknown word or option
serve --relp p q => unknown word or option
serve -- --relp p => unknown word or option
serve --relp p --relp p => an option is given twice
serve --relp=p --as=json => unknown word or option
serve --relp=p --work=4 => unknown word or option
serve --relp=p --workers 0 => --workers: 1 to 16
serve --relp=p --workers 17 => --workers: 1 to 16
serve --relp=p --workers=x => --workers: 1 to 16
serve --relp=p --workers=00000000004 => --workers: 1 to 16
serve --relp=p --workers=4 --workers=4 => an option is given twice
serve --relp=p --connections 0 => --connections: 1 to 1024
serve --relp=p --connections 1025 => --connections: 1 to 1024
serve --relp=p --connections= => --connections: 1 to 1024
serve --relp=p --connections=00000000004 => --connections: 1 to 1024
serve --relp=p --connections => an option has no value
serve --relp=p --connections=4 --connections=4 => an option is given twice
serve --relp=p --connections=4 --workers=4 => --connections: not beside --workers
serve --workers 17 --connections 1025 --relp=p => --connections: not beside --workers
serve --connections 4 => serve: --relp, --lumberjack or --hec is needed
serve --relp=p --connections 4 --talks 0 => --talks: 1 to 1048576 with --connections
serve --relp=p --talks 1048577 --connections 4 => --talks: 1 to 1048576 with --connections
serve --relp=p --talks 0 => --talks: 1 to 67108864
serve --relp=p --talks 67108865 => --talks: 1 to 67108864
serve --relp=p --talks= => --talks: 1 to 67108864
serve --group => serve: --relp, --lumberjack or --hec is needed
serve --relp --group => an option has no value
serve --relp p --group --group => an option is given twice
serve --relp p --group yes => unknown word or option
serve --relp p --group=true => an option takes no value
serve --relp p --group= => an option takes no value
serve --relp p --no-group => unknown word or option
serve --relp p --grou => unknown word or option
serve --relp p -- --group => unknown word or option
serve --relp=p --token zz => --token: no GUID
serve --relp=p --ack-token=zz => --ack-token: no GUID
serve --relp=p --tokens => an option has no value
serve --relp=p --tokens $T --tokens=$T => an option is given twice
serve --relp=p --tokens= => --tokens: 1 to 1000 lines, each a GUID or a GUID and ack
serve --relp=p --tokens zz => --tokens: 1 to 1000 lines, each a GUID or a GUID and ack
serve --relp=p --tokens - => --tokens: 1 to 1000 lines, each a GUID or a GUID and ack
serve --relp=p --tokens $T --token $T => --tokens: not beside --token or --ack-token
serve --ack-token=$A --tokens=$T --hec=h => --tokens: not beside --token or --ack-token
serve --token $T --ack-token=$A --tokens=$T --hec=h => --tokens: not beside --token or --ack-token
serve --relp=p --token zz --tokens=$T => --token: no GUID
serve --relp=p --token $T --tokens zz => --tokens: not beside --token or --ack-token
serve --tokens $T => serve: --relp, --lumberjack or --hec is needed
serve --relp=p -- --tokens $T => unknown word or option
serve --relp=p --tokns $T => unknown word or option
serve --relp=p --forward relp => --forward: --to is needed
serve --relp=p --to d => --to: --forward is needed
serve --relp=p --to=d --out-token $T --out-channel=$A => --to: --forward is needed
serve --relp=p --forward relp --to= => PLACE: empty
serve --relp=p --forward RELP --to=d => PROTO: relp, lumberjack or hec
serve --relp=p --forward hec => --forward: --to is needed
serve --relp=p --forward=hec --to=d => hec: --out-token is needed
serve --relp=p --forward=hec --to=d --out-channel=$A => hec: --out-token is needed
serve --relp=p --forward=hec --to=d --out-token $T => hec: --out-channel is needed
serve --relp=p --out-token zz => --out-token: no GUID
serve --relp=p --out-channel zz => --out-channel: no GUID
serve --relp=p --polls 0 => --polls: 1 to 1000
serve --relp=p --forward=relp --to=d --polls=1001 => --polls: 1 to 1000"#;
