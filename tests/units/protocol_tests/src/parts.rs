//! Bytes that are put together of parts.
use std::process::Abort;

/// Adds the parts, one after the other.
pub(crate) fn add(rt: &impl Abort, out: &mut Vec<u8>, parts: &[&[u8]]) {
    for part in parts {
        out.extend_from_slice(part).expect(rt, "memory");
    }
}
