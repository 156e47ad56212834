//! Arrays and objects, as the cases of `scalars` are written, the depths of both, and which bytes can stand after some fronts.

/// Arrays (section 5).
pub const ARRAYS: &str = r#"0 2|[]
0 3|[ ]
0 3|[%0a]
0 3|[1]
0 9|[ 1 , 2 ]
0 7|[1,2,3]
0 4|[[]]
0 9|[[[]],[]]
0 4|[""]
0 17|["a",1,true,null]
0 4|[{}]
0 3|[1]x
0 2|[]]
0 2|[][]
cut|[
cut|[%20
cut|[[
cut|[1
cut|[1,
cut|[1,%20
cut|["a"
cut|["a
cut|[[1]
cut|[[1],
cut|[1%20
at 1|[,
at 1|[,1]
at 3|[1,,2]
at 3|[1,]
at 4|[1 ,]
at 6|["a",%0a]
at 1|[,]
at 2|[ , ]
at 3|[1 2]
at 3|[1 true]
at 5|["a" "b"]
at 2|[1:2]
at 4|["a":1]
at 2|[1;2]
at 2|[1}
at 1|[}
at 1|{]
at 3|[1,]]
at 0|]
cut|[[]
at 3|[[]1]
at 1|[*]
at 1|[a]
at 2|[1%0c]
at 1|[%0b1]
cut|["
cut|[1,%0a1%0a,1
at 1|[%e2%81%a0]
at 0|(1)
at 0|<1>"#;

/// Objects (section 4).
pub const OBJECTS: &str = r#"0 2|{}
0 3|{ }
0 4|{%0d%0a}
0 7|{"a":1}
0 10|{"a" : 1 }
0 17|{ "a":1 , "b":2 }
0 13|{"a":1,"a":2}
0 13|{"a":1,"a":1}
0 6|{"":0}
0 14|{"\u0000\"":1}
0 8|{"a":{}}
0 20|{"a":{"b":{"c":[]}}}
0 8|{"a":[]}
0 9|{"a":"b"}x
0 2|{}{}
0 2|{}}
cut|{
cut|{%20
cut|{"
cut|{"a
cut|{"a"
cut|{"a"%20
cut|{"a":
cut|{"a":%20
cut|{"a":1
cut|{"a":1%20
cut|{"a":1,
cut|{"a":1,%20
cut|{"a":{
cut|{"a":[1
cut|{"a":tr
at 1|{,
at 1|{1
at 1|{a:1}
at 1|{'a':1}
at 1|{1:1}
at 1|{null:1}
at 1|{[]:1}
at 4|{"a"}
at 4|{"a",1}
at 4|{"a";1}
at 4|{"a"=1}
at 5|{"a" 1}
at 5|{"a"::1}
at 1|{:1}
at 5|{"a":}
at 5|{"a":,
at 7|{"a":1 "b":2}
at 7|{"a":1,}
at 7|{"a":1,,"b":2}
at 6|{"a":1;"b":2}
at 6|{"a":1:
at 6|{"a":1]
at 7|{"a":1,]
at 7|{"a":1,b
at 7|{"a":1,2
at 10|{"a":1,"b"}
at 10|{"a":1,"b",
at 0|}
0 7|{"a":1}]
at 6|{"a":[}
at 6|{"a":{]
at 5|{"a" b}
at 9|{"a":"a" 123}
at 5|{"a":/*c*/1}
0 7|{"a":1}#
at 1|{%f0%9f%87%a8
at 5|{"x"::"b"}
at 6|{"a":01}
at 7|{"a":1.}
at 6|{"a":-}
cut|{"a\u12
at 4|{"a\q":1}"#;

/// Arrays and objects in others, 127 levels of them and more: `deep 127` is the place of the bracket of the 128th level, and `~3*[~` stands
/// for three brackets. A fault before that bracket comes first.
pub const DEPTHS: &str = r#"deep 127|~254*[~
cut|~127*[~
deep 127|~127*[~{~126*[~
at 127|~127*[~x~126*[~
0 254|~127*[~~127*]~
at 100|~100*[~,~26*[~~127*]~
deep 505|~126*{"":~[[]]
0 633|~126*{"":~[1]~126*}~"#;

/// Fronts of values, the place of the fault of a byte that can't stand after, and those that can: some, and stretches by the first byte
/// and the last of each.
pub const NEXT: &str = r#"|0|%09%0a%0d "-0123456789[fnt{|
%20|1|%09%0a%0d "-0123456789[fnt{|
[|1|%09%0a%0d "-0123456789[]fnt{|
[%20|2|%09%0a%0d "-0123456789[]fnt{|
[1|2|%09%0a%0d ,.0123456789E]e|
[1%20|3|%09%0a%0d ,]|
[1,|3|%09%0a%0d "-0123456789[fnt{|
[[]|3|%09%0a%0d ,]|
[true|5|%09%0a%0d ,]|
["a"|4|%09%0a%0d ,]|
{|1|%09%0a%0d "}|
{%20|2|%09%0a%0d "}|
{"a"|4|%09%0a%0d :|
{"a"%20|5|%09%0a%0d :|
{"a":|5|%09%0a%0d "-0123456789[fnt{|
{"a":1|6|%09%0a%0d ,.0123456789Ee}|
{"a":1%20|7|%09%0a%0d ,}|
{"a":1,|7|%09%0a%0d "|
{"a":[]|7|%09%0a%0d ,}|
t|1|r|
tr|2|u|
tru|3|e|
f|1|a|
fa|2|l|
fal|3|s|
fals|4|e|
n|1|u|
nu|2|l|
nul|3|l|
[-|2|0123456789|
[0|2|%09%0a%0d ,.E]e|
[1.|3|0123456789|
[1.5|4|%09%0a%0d ,0123456789E]e|
[1e|3|+-0123456789|
[1e+|4|0123456789|
[1e5|4|%09%0a%0d ,0123456789]|
"\|2|"/\bfnrtu|
"\u|3|0123456789ABCDEFabcdef|
"\u1|4|0123456789ABCDEFabcdef|
"\u12|5|0123456789ABCDEFabcdef|
"\u123|6|0123456789ABCDEFabcdef|
"|1||%20%7f%c2%f4
"a|2||%20%7f%c2%f4
{"|2||%20%7f%c2%f4
"%c3|1||%80%bf
"%e0|1||%a0%bf
"%e2|1||%80%bf
"%e2%82|1||%80%bf
"%ed|1||%80%9f
"%f0|1||%90%bf
"%f1|1||%80%bf
"%f4|1||%80%8f
"%f0%9f|1||%80%bf
"%f0%9f%98|1||%80%bf"#;
