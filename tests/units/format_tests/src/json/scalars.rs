//! Bytes and their answers, one case a line: the answer, a bar and the bytes, in which `%` and two digits stand
//! for a byte. `0 2` is the span of the value, `cut` says that the bytes end too early, and `at 5` is the place
//! of a fault. They go through the productions of RFC 8259, and through the ways to break each.

/// White space before a value (RFC 8259, section 2).
pub const WHITE_SPACE: &str = r#"1 2| 1
1 2|%091
1 2|%0a1
1 2|%0d1
4 6| %09%0a%0d[]
at 0|%0b1
at 0|%0c1
at 0|%c2%a01
at 0|%e2%81%a01
at 0|%ef%bb%bf1
at 0|%ef%bb%bf{}
cut|
cut|%20
cut| %0d%0a%09
at 0|%00
0 1|1%20
0 1|1%0a2
at 0|# c%0a1
at 0|/**/1
at 0|//%0a1"#;

/// The literals (section 3).
pub const LITERALS: &str = r#"0 4|true
0 5|false
0 4|null
at 3|truth
cut|nul
0 4|nulls
at 0|True
at 0|TRUE
at 0|NULL
at 4|falsE
cut|tru
cut|t
at 1|nan
at 0|NaN
at 0|undefined
0 4|true,
0 4|truefalse
at 4|[tru]
at 4|[nul,
at 5|[fals,1]
at 0|Infinity
at 0|yes"#;

/// Numbers (section 6).
pub const NUMBERS: &str = r#"0 1|0
0 2|-0
0 1|1
0 2|-1
0 1|9
0 2|10
0 10|1234567890
0 4|-123
0 1|00
0 1|01
0 2|-01
0 2|-00
0 1|012
0 3|1.0
0 3|0.0
0 3|0.5
0 4|-0.5
0 1|1.
0 1|1.e5
at 0|.5
at 1|-.5
at 0|+1
at 0|++1
at 1|--1
at 1|- 1
cut|-
at 1|-x
at 1|-,
0 3|1.5x
0 3|1.5.6
0 3|1e5
0 3|1E5
0 4|1e+5
0 4|1e-5
0 5|1E+05
0 3|0e0
0 4|0E+9
0 1|1e
0 1|1e+
0 1|1e-
0 1|1ex
0 1|1e+x
0 3|1e5.5
0 3|1e5e5
0 3|1.5e
0 5|1.5e3
0 7|1.5E-30
0 1|0x1F
0 1|1_000
0 1|1,000
0 1|1a
0 1|0a
0 1|1 2
at 1|-Infinity
at 1|-NaN
0 5|1e400
0 7|-1e-400
0 30|123456789012345678901234567890
0 32|0.111111111111111111111111111111
at 0|%ef%bc%91
0 1|1%ef%bc%91
0 1|1%00
0 1|1]
0 2|-1}
0 3|[0]
0 4|[-0]
at 2|[00]
at 2|[01]
at 2|[-]
at 3|[1.]
at 4|[1.5.]
at 1|[.5]
at 3|[1e]
at 4|[1e+]
at 4|[1e1.]
at 1|[+1]
at 2|[1+2]
at 2|[0x1]
cut|[1e
cut|[1e-
cut|[-
cut|[1.
cut|[-1.5e-3
at 3|[1 000]
at 3|[2.e+3]
at 4|[-2.]
at 3|[9.e1
at 3|[1eE2]
at 6|[0.3e+]"#;

/// Strings of single bytes and escapes (section 7).
pub const STRINGS: &str = r#"0 2|""
0 3|"a"
0 3|" "
0 3|"/"
0 3|"'"
0 3|"%7f"
0 4|"\""
0 4|"\\"
0 4|"\/"
0 12|"\b\f\n\r\t"
0 8|"\u0041"
0 14|"\uabcd\uABCD"
0 8|"\u0000"
0 8|"\u00e9"
0 14|"\ud83d\ude00"
0 8|"\ud800"
0 14|"\udc00\ud800"
0 10|"\ud800\n"
0 9|"\ud800a"
0 3|"a" "b"
0 3|"a""b"
at 0|'a'
at 0|`a`
cut|"
cut|"a
cut|"\
cut|"\"
cut|"\u
cut|"\u0
cut|"\u00
cut|"\u004
cut|"\u0041
cut|"\ud800\u
at 2|"\a"
at 2|"\x00"
at 2|"\0"
at 2|"\'"
at 2|"\U0041"
at 2|"\ "
at 2|"\%0a"
at 2|"\%00"
at 3|"\u"
at 4|"\u4"
at 6|"\u004"
at 5|"\u00g1"
at 5|"\u00G1"
at 3|"\u 041"
at 3|"\u-041"
at 3|"\u{41}"
at 10|"\ud800\u1"
at 1|"%0a"
at 1|"%09"
at 1|"%0d"
at 1|"%00"
at 1|"%1f"
at 2|"a%01b"
at 4|"abc%1e
at 4|"tab%09here"
at 3|["a%0ab"]
at 3|{"a%09b":1}
at 2|"\%c3%a9"
at 3|"\u%c3%a9"
at 5|"\uD8%000""#;

/// Characters of several bytes (RFC 3629).
pub const CHARACTERS: &str = r#"0 4|"%c2%80"
0 4|"%c3%a9"
0 4|"%df%bf"
0 5|"%e0%a0%80"
0 5|"%e2%82%ac"
0 5|"%ed%9f%bf"
0 5|"%ee%80%80"
0 5|"%ef%bf%bf"
0 6|"%f0%90%80%80"
0 6|"%f0%9f%98%80"
0 6|"%f4%8f%bf%bf"
0 10|"a%c3%a9b%e2%82%acc"
0 11|{"%c3%a9":"%c3%a9"}
at 1|"%80"
at 1|"%bf"
at 2|"a%80"
at 1|"%c0%80"
at 1|"%c0%af"
at 1|"%c1%bf"
at 1|"%e0%80%80"
at 1|"%e0%9f%bf"
at 1|"%ed%a0%80"
at 1|"%ed%bf%bf"
at 1|"%f0%80%80%80"
at 1|"%f0%8f%bf%bf"
at 1|"%f4%90%80%80"
at 1|"%f5%80%80%80"
at 1|"%f8%88%80%80%80"
at 1|"%fe"
at 1|"%ff"
at 1|"%c3"
at 1|"%c3\u0041"
at 1|"%c3%c3%a9"
at 1|"%e2%82"
at 1|"%e2(%a1"
at 1|"%e2"
at 1|"%f0%9f%98"
at 1|"%f0%9f"
at 1|"%f0"
at 1|"%f0%9f%98%f0%9f%98%80"
cut|"a%e2%82
cut|"a%e2
cut|"a%c3
cut|"%f0%9f%98
cut|"%f0%9f
cut|"%f0
at 3|"%c3%a9%80"
at 2|["%e9"]
at 2|{"%f0%9f%98"
at 6|{"a":"%ed%a0
at 0|%c3%a9
at 0|%ff
at 1|[%ff]
at 2|[1%c3%a9]
at 4|{"a"%e2%82%ac
at 0|%ff%fe[%00]%00
at 0|%fe%ff%00[%00]"#;
