//! Replies as they are written.
use http_edge::write_reply;
use std::alloc::Global;
use std::process::Abort;

const REPLIES: &[u8] =
    b"HTTP/1.1 200 OK\r\nContent-Type: application/json\r\nContent-Length: 27\r\n\r\n\
    {\"text\":\"Success\",\"code\":0}\
    HTTP/1.1 400 Bad Request\r\nContent-Type: application/json\r\nContent-Length: 0\r\nConnection: close\r\n\r\n\
    HTTP/1.1 503 Service Unavailable\r\nContent-Type: application/json\r\nContent-Length: 2\r\n\r\n{}";

/// Three replies are written one after another, the second of which ends the connection.
pub fn replies_are_written(rt: &impl Abort, alloc: Global) {
    let mut out = Vec::new(alloc);
    let success = b"{\"text\":\"Success\",\"code\":0}";
    write_reply(200, false, success, &mut out).expect(rt, "memory");
    write_reply(400, true, b"", &mut out).expect(rt, "memory");
    write_reply(503, false, b"{}", &mut out).expect(rt, "memory");
    assert!(rt; out.as_slice() == REPLIES);
}
