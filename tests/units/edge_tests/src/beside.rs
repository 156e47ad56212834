//! A disk beside a plain list of the bytes that it is to hold.
ghost use Rattle.std.specs.Prelude.{◌≡◌, ◌+◌, ◌<◌, ◌≤◌, length};
ghost use Rattle.edge_disk.specs.Leave.{LetsAll};

use edge_disk::Disk;
use foundation::overwrite;
use std::alloc::Global;
use std::process::Abort;

/// The bytes of the disks.
pub(crate) const SIZE: usize = 160_000;

// How many bytes are written at once: short writes, and long ones, each beside a page's edge and on it.
const LENGTHS: [usize; 9] = [
    1, 4_095, 4_096, 4_097, 61_440, 65_535, 65_536, 65_537, 69_632,
];

// The bytes that are written are parts of a text of so many.
const TEXT: usize = 70_000;

/// Numbers that look random, and are the same in each run.
#[derive(Drop)]
pub(crate) struct Dice(u64);

impl Dice {
    /// Those that this number begins.
    pub(crate) fn new(seed: u64) -> Dice {
        Dice(seed)
    }

    /// One below `n`.
    pub(crate) fn below(&mut self, n: usize) -> usize
        requires { 0 < n }
        ensures { result < n }
    {
        let mixed = self.0.wrapping_mul(6_364_136_223_846_793_005);
        self.0 = mixed.wrapping_add(1_442_695_040_888_963_407);
        (self.0 >> 33) as usize % n
    }
}

/// The disk, and the list.
#[derive(Drop)]
pub(crate) struct Beside<D: Disk> {
    pub disk: D,
    pub bytes: Vec<u8>,
    /// Where the last write began and ended.
    pub last: (usize, usize),
    ghost free: { LetsAll D.may_tear },
}

impl<D: Disk> Beside<D> {
    /// A disk of `SIZE` zero bytes.
    pub(crate) fn new(rt: &impl Abort, alloc: Global, disk: D) -> Beside<D>
        requires { LetsAll D.may_tear }
    {
        assert!(rt; disk.len() == SIZE as u64);
        Beside {
            disk,
            bytes: vec![in alloc; 0; SIZE].expect(rt, "memory"),
            last: (0, 0),
        }
    }

    /// Writes the piece to both. Gives whether the disk's write passed; else its bytes there say nothing.
    pub(crate) fn write(&mut self, rt: &impl Abort, at: usize, piece: &[u8]) -> bool {
        let end = at.saturating_add(piece.len());
        assert!(rt; end <= self.bytes.len() && end as u64 <= self.disk.len() && end < usize::MAX);
        overwrite(&mut self.bytes, at, piece);
        self.last = (at, end);
        self.disk.write_at(at as u64, piece).is_ok()
    }

    /// Whether a read of so many bytes passes, and gives what the list has.
    pub(crate) fn reads(&mut self, rt: &impl Abort, alloc: Global, at: usize, len: usize) -> bool {
        let end = at.saturating_add(len);
        assert!(rt; end <= self.bytes.len() && end as u64 <= self.disk.len() && end < usize::MAX);
        let mut buf = vec![in alloc; 9; len].expect(rt, "memory");
        self.disk.read_at(at as u64, &mut buf).is_ok() && buf.as_slice() == &self.bytes[at..end]
    }

    // Writes where the last write ended, a little before that, just before it began, at a page's edge, or anywhere.
    fn write_somewhere(&mut self, rt: &impl Abort, text: &[u8], dice: &mut Dice) {
        let len = LENGTHS[dice.below(9)];
        let from = dice.below(300);
        assert!(rt; from.saturating_add(len) <= text.len() && len <= SIZE);
        let (start, end) = self.last;
        let wanted = match dice.below(6) {
            0 | 1 => end,
            2 => end.saturating_sub(dice.below(5_000)),
            3 => start.saturating_sub(len),
            4 => dice.below(39) * 4_096,
            _ => dice.below(SIZE),
        };
        let at = wanted.min(SIZE - len);
        let is_written = self.write(rt, at, &text[from..from + len]);
        assert!(rt; is_written);
    }

    /// Some calls of the disk, none of which fails: mostly writes, some reads, of which each gives what the list has, and
    /// some syncs.
    pub(crate) fn calls(&mut self, rt: &impl Abort, alloc: Global, text: &[u8], dice: &mut Dice) {
        for _ in 0..dice.below(20) {
            match dice.below(8) {
                0 => {
                    let len = dice.below(10_000);
                    let at = dice.below(SIZE - 10_000);
                    let is_read = self.reads(rt, alloc, at, len);
                    assert!(rt; is_read);
                }
                1 => {
                    let is_synced = self.disk.sync().is_ok();
                    assert!(rt; is_synced);
                }
                _ => self.write_somewhere(rt, text, dice),
            }
        }
    }
}

/// The text of whose parts the writes are.
pub(crate) fn text(rt: &impl Abort, alloc: Global) -> Vec<u8> {
    let mut text = vec![in alloc; 0; TEXT].expect(rt, "memory");
    for (place, byte) in text.iter_mut().enumerate() {
        *byte = (place % 251) as u8;
    }
    text
}

/// The first `len` bytes of a text that has as many.
pub(crate) fn front<'a>(rt: &impl Abort, text: &'a [u8], len: usize) -> &'a [u8] {
    assert!(rt; len <= text.len());
    &text[..len]
}
