ghost use Rattle.std.specs.Prelude.{ℕ, List, Some};
ghost use Rattle.edge_io.specs.Told.{MayFollow};

use edge_io::{
    Both, FileIo, Link, MemLink, MemSink, MemSource, Object, ReadFault, Sink, Source, Stopped,
    WriteFault, write_whole,
};
use std::alloc::Global;
use std::collections::VecDeque;
use std::io::{self, ErrorKind, Read, Write};
use std::process::Abort;

// Sources of the text `hello, world` that give so many bytes at a time, the calls of them that fail, and what
// reads into a buffer of four bytes give, each after a bar: bytes, or `fault`.
const READS: [(usize, &[u64], &str); 5] = [
    (9, &[], "hell|o, w|orld|||"),
    (3, &[], "hel|lo,| wo|rld||"),
    (9, &[0, 2], "fault|hell|fault|o, w|orld|"),
    (9, &[3, 4], "hell|o, w|orld|fault|fault|"),
    (1, &[1, 1, 99], "h|fault|e|l|l|o"),
];

// Whether the reads give this, each after a bar.
fn gives(source: &mut MemSource, wants: &str) -> bool {
    for want in wants.split('|') {
        let mut buf = [0u8; 4];
        let is_right = match source.read(&mut buf) {
            Ok(n) => want.as_bytes() == &buf[..n],
            Err(ReadFault) => want == "fault",
        };
        if !is_right {
            return false;
        }
    }
    true
}

pub(crate) fn reads_in_steps_and_to_the_end(rt: &impl Abort, alloc: Global) {
    for (step, failing, wants) in READS {
        assert!(rt; step > 0);
        let bytes = b"hello, world".to_vec(alloc).expect(rt, "memory");
        let failing = failing.to_vec(alloc).expect(rt, "memory");
        let mut source = MemSource::of(bytes, step, failing);
        assert!(rt; gives(&mut source, wants), "{wants}");
    }
}

pub(crate) fn writes_but_those_that_fail(rt: &impl Abort, alloc: Global) {
    let failing = [1, 4].to_vec(alloc).expect(rt, "memory");
    let mut sink = MemSink::of(alloc, failing);
    for (piece, want, taken) in [
        ("ab", Ok(2), "ab"),
        ("cd", Err(WriteFault), "ab"),
        ("", Ok(0), "ab"),
        ("efg", Ok(3), "abefg"),
        ("", Err(WriteFault), "abefg"),
        ("h", Ok(1), "abefgh"),
    ] {
        let wrote = sink.write(piece.as_bytes());
        assert!(rt; wrote == want && sink.taken() == taken.as_bytes());
    }
    assert!(rt; sink.starved() == 0);
}

// A sink that takes at most three bytes of a piece, and so many pieces.
#[derive(Drop)]
struct Trickle {
    bytes: Vec<u8>,
    pieces: u8,
    faults: u64,
}

impl Object for Trickle {
    ghost same = { λ _ _. Unit {0} };

    ghost same_refl = { λ _. tt };

    ghost same_trans = { λ _ _ _ _ _. tt };
}

impl Sink for Trickle {
    ghost taken = { λ sink. Some sink.bytes.items };

    ghost permits = { λ _ _. Unit {0} };

    ghost write_faults = { λ sink. sink.faults };

    ghost write_apart = { λ _ _. Unit {0} };

    ghost permits_last = { λ _ _ _. (λ _ _. tt, λ none. absurd Prim.cc) };

    ghost apart_refl = { λ _. tt };

    ghost apart_trans = { λ _ _ _ _ _. tt };

    fn write(&mut self, piece: &[u8]) -> Result<usize, WriteFault> {
        let n = piece.len().min(3);
        if self.pieces == 0 || self.bytes.extend_from_slice(&piece[..n]).is_err() {
            self.faults = self.faults.saturating_add(1);
            return Err(WriteFault);
        }
        self.pieces -= 1;
        Ok(n)
    }
}

pub(crate) fn a_piece_is_written_whole_or_its_start_is(rt: &impl Abort, alloc: Global) {
    for (pieces, piece, want, taken) in [
        (9, "0123456789", Ok(()), "0123456789"),
        (2, "0123456789", Err(Stopped { sent: 6 }), "012345"),
        (0, "0123456789", Err(Stopped { sent: 0 }), ""),
        (0, "", Ok(()), ""),
    ] {
        let mut sink = Trickle {
            bytes: Vec::new(alloc),
            pieces,
            faults: 0,
        };
        let wrote = write_whole(&mut sink, piece.as_bytes());
        assert!(rt; wrote == want && sink.bytes.as_slice() == taken.as_bytes());
    }
}

// Writes what one read gives, to a link that may be written any text.
fn echo<L: Link>(link: &mut L) -> bool
    requires free { (now : L) (text : List ℕ) → MayFollow (L.permits now) (L.taken now) text }
{
    let mut buf = [0u8; 8];
    match link.read(&mut buf) {
        Ok(n) => write_whole(link, &buf[..n]).is_ok(),
        Err(ReadFault) => false,
    }
}

pub(crate) fn links_read_and_write(rt: &impl Abort, alloc: Global) {
    let bytes = b"over and out".to_vec(alloc).expect(rt, "memory");
    let failing = [1].to_vec(alloc).expect(rt, "memory");
    let mut source = MemSource::of(bytes, 5, failing);
    let mut sink = MemSink::of(alloc, Vec::new(alloc));
    let mut both = Both {
        source: &mut source,
        sink: &mut sink,
    };
    let answers = [echo(&mut both), echo(&mut both), echo(&mut both)];
    assert!(rt; answers == [true, false, true]);
    assert!(rt; sink.taken() == "over and o".as_bytes());
    let mut link = MemLink::of(source, sink);
    assert!(rt; echo(&mut link));
    assert!(rt; link.read(&mut [0u8; 8]) == Ok(0));
}

// What of a device fails.
#[derive(Clone, Copy)]
enum Part {
    Read,
    Write,
    Room,
    Flush,
}

// A device of which one part fails.
#[derive(Drop)]
struct Device(Part);

impl Read for Device {
    fn read(&mut self, _buf: &mut [u8]) -> io::Result<usize> {
        match self.0 {
            Part::Read => Err(ErrorKind::BrokenPipe.into()),
            _ => Ok(0),
        }
    }
}

impl Write for Device {
    fn write(&mut self, buf: &[u8]) -> io::Result<usize> {
        match self.0 {
            Part::Write => Err(ErrorKind::BrokenPipe.into()),
            Part::Room => Ok(0),
            _ => Ok(buf.len()),
        }
    }

    fn flush(&mut self) -> io::Result<()> {
        match self.0 {
            Part::Flush => Err(ErrorKind::BrokenPipe.into()),
            _ => Ok(()),
        }
    }
}

pub(crate) fn files_pass_bytes_and_tell_errors(rt: &impl Abort, alloc: Global) {
    let mut file = FileIo::of(VecDeque::<u8>::new(alloc));
    let mut buf = [0u8; 8];
    assert!(rt; write_whole(&mut file, b"to and fro").is_ok());
    for want in ["to and f", "ro", ""] {
        let is_read = file.read(&mut buf) == Ok(want.len());
        assert!(rt; is_read && buf.starts_with(want.as_bytes()));
    }
    for (part, reads, writes) in [
        (Part::Read, Err(ReadFault), Ok(2)),
        (Part::Write, Ok(0), Err(WriteFault)),
        (Part::Room, Ok(0), Err(WriteFault)),
        (Part::Flush, Ok(0), Err(WriteFault)),
    ] {
        let mut file = FileIo::of(Device(part));
        let is_read = file.read(&mut buf) == reads;
        assert!(rt; is_read && file.write(b"hi") == writes);
    }
}
