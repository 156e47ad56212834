//! Numbers in bytes, and parts of bytes.
use foundation::{copy_range, overwrite, u32_at, u64_at};
use std::alloc::Global;
use std::process::Abort;

/// Numbers stand in network order, and parts of bytes are put and copied.
pub(crate) fn bytes_are_read_put_and_copied(rt: &impl Abort, alloc: Global) {
    let numbers = [9, 1, 2, 3, 4, 5, 6, 7, 8];
    assert!(rt; u32_at(&numbers, 1) == 0x0102_0304);
    assert!(rt; u64_at(&numbers, 1) == 0x0102_0304_0506_0708);
    let mut bytes = [0, 1, 2, 3, 4];
    overwrite(&mut bytes, 1, &[7, 8, 9]);
    assert!(rt; bytes == [0, 7, 8, 9, 4]);
    for (from, to, want) in [(0, 2, "ab"), (1, 4, "bcd"), (3, 5, "de"), (3, 3, "")] {
        let copy = copy_range(alloc, b"abc", b"de", from, to).expect(rt, "memory");
        assert!(rt; copy.as_slice() == want.as_bytes());
    }
}
