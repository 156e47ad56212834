//! Heads of the PROXY protocol, whole, cut at each byte, and broken. Those that are whole are HAProxy's own examples and limits.
use proxy_head::{Reading, Source, read};
use std::alloc::Global;
use std::process::Abort;

// What bytes begin with, and what is read from them: the length of the head, and the source's address and port; or that more bytes are
// wanted; or the fault.
const ROWS: [(&[u8], &str); 51] = [
    (
        b"PROXY TCP4 192.168.0.1 192.168.0.11 56324 443\r\nGET / HTTP/1.1\r\n",
        "47: 192.168.0.1 56324",
    ),
    (
        b"PROXY TCP4 255.255.255.255 255.255.255.255 65535 65535\r\n",
        "56: 255.255.255.255 65535",
    ),
    (b"PROXY TCP4 1.2.3.4 5.6.7.8 0 0\r\n", "32: 1.2.3.4 0"),
    (
        b"PROXY TCP6 ffff:ffff:ffff:ffff:ffff:ffff:ffff:ffff ffff:ffff:ffff:ffff:ffff:ffff:ffff:ffff 65535 65535\r\n",
        "104: ffff:ffff:ffff:ffff:ffff:ffff:ffff:ffff 65535",
    ),
    (b"PROXY TCP6 ::1 2001:DB8::7 1 2\r\n2W", "32: ::1 1"),
    (
        b"PROXY TCP6 ::ffff:192.0.2.1 ::1 1 2\r\n",
        "37: ::ffff:192.0.2.1 1",
    ),
    (b"PROXY UNKNOWN\r\n", "15: the proxy's own"),
    (
        b"PROXY UNKNOWN ffff:ffff:ffff:ffff:ffff:ffff:ffff:ffff ffff:ffff:ffff:ffff:ffff:ffff:ffff:ffff 65535 65535\r\n",
        "107: the proxy's own",
    ),
    (b"PROXY UNKNOWN a\rb\nc\r\n", "21: the proxy's own"),
    (b"PROXY UNKNOWNX\r\n", "byte 6: unknown protocol"),
    (
        b"PROXY TCP5 1.2.3.4 5.6.7.8 1 2\r\n",
        "byte 6: unknown protocol",
    ),
    (
        b"PROXY  TCP4 1.2.3.4 5.6.7.8 1 2\r\n",
        "byte 6: unknown protocol",
    ),
    (b"PROXY \r\n", "byte 6: unknown protocol"),
    (b"PROXY TCP4\r\n", "byte 11: no source address"),
    (b"PROXY TCP4 ::1 ::1 1 2\r\n", "byte 11: no source address"),
    (
        b"PROXY TCP6 1.2.3.4 5.6.7.8 1 2\r\n",
        "byte 11: no source address",
    ),
    (
        b"PROXY TCP4 1.2.3.04 5.6.7.8 1 2\r\n",
        "byte 11: no source address",
    ),
    (b"PROXY TCP4 1.2.3.4\r\n", "byte 19: no destination address"),
    (
        b"PROXY TCP4 1.2.3.4  5.6.7.8 1 2\r\n",
        "byte 19: no destination address",
    ),
    (
        b"PROXY TCP4 1.2.3.4 5.6.7.256 1 2\r\n",
        "byte 19: no destination address",
    ),
    (
        b"PROXY TCP4 1.2.3.4 5.6.7.8 01 2\r\n",
        "byte 27: no source port",
    ),
    (
        b"PROXY TCP4 1.2.3.4 5.6.7.8 +1 2\r\n",
        "byte 27: no source port",
    ),
    (
        b"PROXY TCP4 1.2.3.4 5.6.7.8 65536 2\r\n",
        "byte 27: no source port",
    ),
    (
        b"PROXY TCP4 1.2.3.4 5.6.7.8 1\r\n",
        "byte 29: no destination port",
    ),
    (
        b"PROXY TCP4 1.2.3.4 5.6.7.8 1 2 \r\n",
        "byte 29: no destination port",
    ),
    (
        b"PROXY TCP4 1.2.3.4 5.6.7.8 1 4294967298\r\n",
        "byte 29: no destination port",
    ),
    (b"PROXY TCP4 1.2.3.4 5.6.7.8 1 2\n", "more"),
    (b"PROXY TCP4 1.2.3.4 5.6.7.8 1 2\r", "more"),
    (b"", "more"),
    (
        b"GET / HTTP/1.1\r\n",
        "byte 0: neither PROXY nor the signature of version 2",
    ),
    (
        b"PRI * HTTP/2.0\r\n",
        "byte 2: neither PROXY nor the signature of version 2",
    ),
    (
        b"PROXY\t",
        "byte 5: neither PROXY nor the signature of version 2",
    ),
    (
        b"\r\n\r\n\0\r\nQUIT\r",
        "byte 11: neither PROXY nor the signature of version 2",
    ),
    (
        b"\r\n\r\n\0\r\nQUIT\n\x21\x11\x00\x0c\xc0\xa8\0\x01\xc0\xa8\0\x0b\xdc\x04\x01\xbb2W",
        "28: 192.168.0.1 56324",
    ),
    (
        b"\r\n\r\n\0\r\nQUIT\n\x21\x11\x00\x13\x01\x02\x03\x04\x05\x06\x07\x08\0\x01\0\x02\x04\0\x04\0\0\0\0",
        "35: 1.2.3.4 1",
    ),
    (
        b"\r\n\r\n\0\r\nQUIT\n\x21\x21\x00\x24\x20\x01\x0d\xb8\0\0\0\0\0\0\0\0\0\0\0\x07\0\0\0\0\0\0\0\0\0\0\0\0\0\0\0\0\x01\x02\x03\x04",
        "52: 2001:db8::7 258",
    ),
    (
        b"\r\n\r\n\0\r\nQUIT\n\x20\x00\x00\x00",
        "16: the proxy's own",
    ),
    (
        b"\r\n\r\n\0\r\nQUIT\n\x20\xff\x00\x03abcd",
        "19: the proxy's own",
    ),
    (
        b"\r\n\r\n\0\r\nQUIT\n\x21\x00\x00\x00",
        "16: the proxy's own",
    ),
    (
        b"\r\n\r\n\0\r\nQUIT\n\x21\x12\x00\x0c\x01\x02\x03\x04\x05\x06\x07\x08\0\x01\0\x02",
        "28: the proxy's own",
    ),
    (
        b"\r\n\r\n\0\r\nQUIT\n\x21\x31\x00\x01x",
        "17: the proxy's own",
    ),
    (
        b"\r\n\r\n\0\r\nQUIT\n\x11\x11\x00\x0c",
        "byte 12: no version 2 with LOCAL or PROXY",
    ),
    (
        b"\r\n\r\n\0\r\nQUIT\n\x22\x11\x00\x0c",
        "byte 12: no version 2 with LOCAL or PROXY",
    ),
    (
        b"\r\n\r\n\0\r\nQUIT\n\x21\x13\x00\x0c",
        "byte 13: unknown family",
    ),
    (
        b"\r\n\r\n\0\r\nQUIT\n\x21\x41\x00\x0c",
        "byte 13: unknown family",
    ),
    (
        b"\r\n\r\n\0\r\nQUIT\n\x21\x10\x00\x0c",
        "byte 13: unknown family",
    ),
    (b"\r\n\r\n\0\r\nQUIT\n\x21\x11\x10\x00", "byte 14: too long"),
    (b"\r\n\r\n\0\r\nQUIT\n\x20\x00\xff\xff", "byte 14: too long"),
    (b"\r\n\r\n\0\r\nQUIT\n\x21\x11\x0f\xff", "more"),
    (
        b"\r\n\r\n\0\r\nQUIT\n\x21\x11\x00\x0b",
        "byte 15: shorter than its addresses",
    ),
    (
        b"\r\n\r\n\0\r\nQUIT\n\x21\x21\x00\x23",
        "byte 15: shorter than its addresses",
    ),
];

// What is read from the bytes, as a row has it.
fn text_of(rt: &impl Abort, alloc: Global, bytes: &[u8]) -> String {
    let text = match read(bytes) {
        Ok(Reading::Whole(head)) => {
            let len = head.len;
            match head.source {
                Some(Source { ip, port }) => format!(in alloc; "{len}: {ip} {port}"),
                None => format!(in alloc; "{len}: the proxy's own"),
            }
        }
        Ok(Reading::More) => format!(in alloc; "more"),
        Err(fault) => format!(in alloc; "{fault}"),
    };
    text.expect(rt, "memory")
}

/// Each row is read as it has it, each beginning of a whole head is too short, and what follows changes nothing.
pub(crate) fn heads(rt: &impl Abort, alloc: Global) {
    for (bytes, told) in ROWS {
        let text = text_of(rt, alloc, bytes);
        assert_eq!(rt; text.as_str(), told);
        if let Ok(Reading::Whole(head)) = read(bytes) {
            for len in 0..head.len {
                let text = text_of(rt, alloc, &bytes[..len]);
                assert_eq!(rt; text.as_str(), "more");
            }
        }
    }
}

/// A line that has no end among its first 107 bytes is a fault at the byte where that is sure.
pub(crate) fn long_lines(rt: &impl Abort, alloc: Global) {
    let mut line = Vec::from_slice(alloc, b"PROXY UNKNOWN ").expect(rt, "memory");
    while line.len() < 105 {
        line.push(b'x').expect(rt, "memory");
    }
    assert_eq!(rt; text_of(rt, alloc, &line).as_str(), "more");
    line.push(b'x').expect(rt, "memory");
    assert_eq!(rt; text_of(rt, alloc, &line).as_str(), "byte 105: too long");
    line[105] = b'\r';
    assert_eq!(rt; text_of(rt, alloc, &line).as_str(), "more");
    line.push(b'\r').expect(rt, "memory");
    assert_eq!(rt; text_of(rt, alloc, &line).as_str(), "byte 106: too long");
    line[106] = b'\n';
    assert_eq!(rt; text_of(rt, alloc, &line).as_str(), "107: the proxy's own");
}
