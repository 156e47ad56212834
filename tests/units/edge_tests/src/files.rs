//! Disks that are files.
use crate::beside::{Beside, Dice, SIZE, front, text};
use edge_disk::Disk;
use edge_file::{FileDisk, OpenFault, PairFault, Sharing};
use std::fs::{self, OpenOptions, Permissions};
use std::os::unix::fs::{PermissionsExt, symlink};
use std::process::{self, Abort};
use std::rt::Files;
use std::{env, io};

// The name of a file of this process.
fn file_name(rt: &impl Abort, host: &HostRuntime) -> String {
    format!(in host.alloc(); "edge_disk_{}", process::id(host.process())).expect(rt, "memory")
}

// The path where a file of that name is in the system's folder for temporary files. No file is there.
fn path_of(rt: &impl Abort, host: &HostRuntime, name: &str) -> String {
    let folder = env::temp_dir(host).expect(rt, "a folder");
    let path = folder.join(host.alloc(), name).expect(rt, "memory");
    let _ = fs::remove_file(host, path.as_path());
    let text = path.to_str().expect(rt, "a path that is text");
    text.to_string(host.alloc()).expect(rt, "memory")
}

// Whether the file holds these bytes.
fn holds(rt: &impl Abort, host: &HostRuntime, path: &str, want: &[u8]) -> bool {
    let bytes = fs::read(host, path).expect(rt, "a file");
    bytes.as_slice() == want
}

// Makes a disk of four bytes where no file is, and writes two of them.
fn write_two(rt: &impl Abort, host: &HostRuntime, path: &str) {
    assert!(rt; FileDisk::open(host, path).is_err());
    let mut disk = FileDisk::make(host, path, 4).expect(rt, "make");
    assert!(rt; disk.len() == 4);
    assert!(rt; disk.write_at(1, &[2, 3]).is_ok() && disk.sync().is_ok());
}

fn a_file_keeps_its_bytes(rt: &impl Abort, host: &HostRuntime, path: &str) {
    write_two(rt, host, path);
    assert!(rt; holds(rt, host, path, &[0, 2, 3, 0]));
    let mut disk = FileDisk::open(host, path).expect(rt, "open");
    assert!(rt; disk.len() == 4);
    let mut buf = [9; 3];
    assert!(rt; disk.read_at(0, &mut buf).is_ok() && buf == [0, 2, 3]);
    // A file that has become shorter gives no bytes in place of those that are gone.
    fs::write(host, path, b"\x01".as_slice()).expect(rt, "write");
    assert!(rt; disk.read_at(0, &mut buf).is_err());
    fs::remove_file(host, path).expect(rt, "remove");
}

// Makes the disk, and sees that it and its file hold these two bytes.
fn check_made(rt: &impl Abort, host: &HostRuntime, path: &str, len: u64, want: [u8; 2]) {
    let mut disk = FileDisk::make(host, path, len).expect(rt, "make");
    assert!(rt; disk.len() == 2);
    let mut buf = [9; 2];
    assert!(rt; disk.read_at(0, &mut buf).is_ok() && buf == want);
    drop(disk);
    assert!(rt; holds(rt, host, path, &want));
}

fn a_length_is_set_where_there_is_none(rt: &impl Abort, host: &HostRuntime, path: &str) {
    // an empty file gets the length
    fs::write(host, path, b"".as_slice()).expect(rt, "write");
    let disk = FileDisk::make(host, path, 3).expect(rt, "make");
    assert!(rt; disk.len() == 3);
    drop(disk);
    assert!(rt; holds(rt, host, path, &[0; 3]));
    // one with bytes keeps them and its length, whichever length is asked for
    for len in [0, 1, 9] {
        fs::write(host, path, b"\x07\x08".as_slice()).expect(rt, "write");
        check_made(rt, host, path, len, [7, 8]);
    }
    fs::remove_file(host, path).expect(rt, "remove");
}

// Whether another program has the file open, and doesn't share it.
fn is_in_use(opened: Result<FileDisk, OpenFault>) -> bool {
    matches!(opened, Err(OpenFault::InUse))
}

// Nobody else has what one program has for itself.
fn a_file_in_use_is_not_opened(rt: &impl Abort, host: &HostRuntime, path: &str) {
    let first = FileDisk::make_locked(host, path, 2).expect(rt, "make");
    for sharing in [Sharing::Exclusive, Sharing::Shared] {
        assert!(rt; is_in_use(FileDisk::open_locked(host, path, sharing)));
    }
    assert!(rt; is_in_use(FileDisk::make_locked(host, path, 9)));
    assert!(rt; FileDisk::open(host, path).is_err());
    drop(first);
}

// Those that share a file have it together, and nobody has it alone.
fn a_file_is_shared(rt: &impl Abort, host: &HostRuntime, path: &str) {
    let first = FileDisk::open_locked(host, path, Sharing::Shared).expect(rt, "first");
    let second = FileDisk::open_locked(host, path, Sharing::Shared).expect(rt, "second");
    drop(first);
    assert!(rt; is_in_use(FileDisk::open_locked(host, path, Sharing::Exclusive)));
    drop(second);
    assert!(rt; FileDisk::open(host, path).is_ok());
    fs::remove_file(host, path).expect(rt, "remove");
    let gone = FileDisk::open_locked(host, path, Sharing::Exclusive);
    assert!(rt; matches!(gone, Err(OpenFault::NotFound)));
}

// Which of the bits that say who may do what with a file are set.
fn mode_of(rt: &impl Abort, host: &HostRuntime, path: &str) -> u32 {
    let metadata = fs::metadata(host, path).expect(rt, "metadata");
    metadata.permissions().mode() & 0o777
}

// A file that is made is its owner's alone, and one that was there keeps its mode.
fn a_file_is_its_owners_alone(rt: &impl Abort, host: &HostRuntime, path: &str) {
    drop(FileDisk::make(host, path, 2).expect(rt, "make"));
    assert!(rt; mode_of(rt, host, path) == 0o600);
    let shared = Permissions::from_mode(0o640);
    host.set_permissions(path, shared)
        .expect(rt, "set permissions");
    drop(FileDisk::make(host, path, 2).expect(rt, "make again"));
    assert!(rt; mode_of(rt, host, path) == 0o640);
    fs::remove_file(host, path).expect(rt, "remove");
}

// A write doesn't make a file longer again that somebody shortened: it is a fault, and so is a read of what is gone. A sync
// doesn't look at the length. Once the file has its length again it is read and written as before.
fn a_file_that_shrank_is_a_fault(rt: &impl Abort, host: &HostRuntime, path: &str) {
    let mut disk = FileDisk::make(host, path, 4).expect(rt, "make");
    assert!(rt; disk.len() == 4);
    assert!(rt; disk.write_at(1, &[2, 3]).is_ok());
    fs::write(host, path, b"\x09".as_slice()).expect(rt, "shorten");
    assert!(rt; disk.len() == 4);
    assert!(rt; disk.write_at(2, &[5]).is_err() && holds(rt, host, path, &[9]));
    let mut buf = [0; 4];
    assert!(rt; disk.read_at(0, &mut buf).is_err() && disk.read_at(0, &mut buf[..1]).is_ok());
    assert!(rt; disk.sync().is_ok() && holds(rt, host, path, &[9]));
    assert!(rt; disk.write_at(0, &[5]).is_err() && holds(rt, host, path, &[9]));
    fs::write(host, path, b"\x09\x08\x07\x06".as_slice()).expect(rt, "lengthen");
    assert!(rt; disk.len() == 4);
    assert!(rt; disk.read_at(0, &mut buf).is_ok() && buf == [9, 8, 7, 6]);
    assert!(rt; disk.write_at(0, &[5]).is_ok() && disk.sync().is_ok());
    drop(disk);
    assert!(rt; holds(rt, host, path, &[5, 8, 7, 6]));
    fs::remove_file(host, path).expect(rt, "remove");
}

// Whatever is written to a file of many pages, in whatever order: each read gives it, and so does the file after a sync.
fn a_file_of_many_pages(rt: &impl Abort, host: &HostRuntime, path: &str) {
    let text = text(rt, host.alloc());
    for seed in 500..504u64 {
        let mut dice = Dice::new(seed);
        let disk = FileDisk::make(host, path, SIZE as u64).expect(rt, "make");
        let mut beside = Beside::new(rt, host.alloc(), disk);
        for _ in 0..3 {
            beside.calls(rt, host.alloc(), &text, &mut dice);
            let is_synced = beside.disk.sync().is_ok();
            assert!(rt; is_synced && holds(rt, host, path, &beside.bytes));
        }
        drop(beside);
        fs::remove_file(host, path).expect(rt, "remove");
    }
}

// The last part of a long write that the file has no more room for is a fault of the call that writes it, and is written once there is
// room again.
fn a_held_part_that_has_no_room_is_a_fault(rt: &impl Abort, host: &HostRuntime, path: &str) {
    let text = text(rt, host.alloc());
    let disk = FileDisk::make(host, path, SIZE as u64).expect(rt, "make");
    let mut beside = Beside::new(rt, host.alloc(), disk);
    let is_written = beside.write(rt, 0, front(rt, &text, 65_537));
    assert!(rt; is_written);
    fs::write(host, path, front(rt, &text, 65_536)).expect(rt, "shorten");
    let mut buf = [0; 4];
    assert!(rt; beside.disk.len() == SIZE as u64);
    assert!(rt; beside.disk.read_at(0, &mut buf).is_err() && beside.disk.sync().is_err());
    assert!(rt; !beside.write(rt, 65_537, b"a") && !beside.write(rt, 9, b"b"));
    assert!(rt; holds(rt, host, path, front(rt, &text, 65_536)));
    fs::write(host, path, front(rt, &beside.bytes, 65_536)).expect(rt, "shorten");
    let mut options = OpenOptions::new();
    options.write(true);
    let file = options.open(host, path).expect(rt, "open");
    file.set_len(SIZE as u64).expect(rt, "lengthen");
    drop(file);
    let is_written = beside.write(rt, 65_537, b"a");
    assert!(rt; is_written && beside.disk.sync().is_ok());
    assert!(rt; holds(rt, host, path, &beside.bytes));
    drop(beside);
    fs::remove_file(host, path).expect(rt, "remove");
}

// A symbolic link stands for the file that it leads to, which is made where it isn't there.
fn a_link_is_its_target(rt: &impl Abort, host: &HostRuntime, path: &str) {
    let folder = format!(in host.alloc(); "{path}_folder").expect(rt, "memory");
    let target = format!(in host.alloc(); "{folder}/target").expect(rt, "memory");
    fs::create_dir(host, folder.as_str()).expect(rt, "a folder");
    symlink(host, target.as_str(), path).expect(rt, "a link");
    let mut disk = FileDisk::make(host, path, 2).expect(rt, "make");
    assert!(rt; disk.len() == 2);
    assert!(rt; disk.write_at(0, &[6, 7]).is_ok() && disk.sync().is_ok());
    assert!(rt;
        holds(rt, host, target.as_str(), &[6, 7]) && mode_of(rt, host, target.as_str()) == 0o600
    );
    assert!(rt; is_in_use(FileDisk::open_locked(host, target.as_str(), Sharing::Exclusive)));
    drop(disk);
    fs::remove_file(host, target.as_str()).expect(rt, "remove the target");
    fs::remove_dir(host, folder.as_str()).expect(rt, "remove the folder");
    // Where its folder is gone, nothing is made.
    let made = FileDisk::make_locked(host, path, 2);
    assert!(rt; matches!(made, Err(OpenFault::NotFound)));
    fs::remove_file(host, path).expect(rt, "remove the link");
}

// Why two files aren't opened together, if they aren't.
fn pair_fault(host: &HostRuntime, first: &str, second: &str) -> Option<PairFault> {
    FileDisk::open_both(host, first, second).err()
}

// Two files are opened together, each for this program alone, and not one of them as both, by whichever names.
fn two_files_are_opened(rt: &impl Abort, host: &HostRuntime, path: &str) {
    let other = format!(in host.alloc(); "{path}_other").expect(rt, "memory");
    let hard = format!(in host.alloc(); "{path}_hard").expect(rt, "memory");
    let soft = format!(in host.alloc(); "{path}_soft").expect(rt, "memory");
    drop(FileDisk::make(host, path, 2).expect(rt, "make"));
    assert!(rt; pair_fault(host, path, &other) == Some(PairFault::Second(OpenFault::NotFound)));
    assert!(rt; pair_fault(host, &other, path) == Some(PairFault::First(OpenFault::NotFound)));
    drop(FileDisk::make(host, &other, 3).expect(rt, "make the other"));
    fs::hard_link(host, path, hard.as_str()).expect(rt, "a hard link");
    symlink(host, path, soft.as_str()).expect(rt, "a symbolic link");
    for (first, second) in [(path, path), (path, &hard), (&soft, path), (&hard, &soft)] {
        assert!(rt; pair_fault(host, first, second) == Some(PairFault::OneFile));
    }
    let (first, second) = FileDisk::open_both(host, path, &other).expect(rt, "both");
    assert!(rt; first.len() == 2 && second.len() == 3);
    for name in [path, &other, &hard, &soft] {
        assert!(rt; is_in_use(FileDisk::open_locked(host, name, Sharing::Shared)));
    }
    drop(first);
    assert!(rt; pair_fault(host, path, &other) == Some(PairFault::Second(OpenFault::InUse)));
    assert!(rt; pair_fault(host, &other, path) == Some(PairFault::First(OpenFault::InUse)));
    drop(second);
    let (second, first) = FileDisk::open_both(host, &other, path).expect(rt, "both, exchanged");
    assert!(rt; first.len() == 2 && second.len() == 3);
    drop(first);
    drop(second);
    for name in [path, &other, &hard, &soft] {
        fs::remove_file(host, name).expect(rt, "remove");
    }
}

// What is neither a file nor a block device isn't opened, and a file system without room, or a quota that is spent, is told of.
fn why_nothing_is_opened(rt: &impl Abort, host: &HostRuntime) {
    let none = "/dev/null";
    for sharing in [Sharing::Exclusive, Sharing::Shared] {
        let opened = FileDisk::open_locked(host, none, sharing);
        assert!(rt; matches!(opened, Err(OpenFault::NoFile)));
    }
    let made = FileDisk::make_locked(host, none, 2);
    assert!(rt; matches!(made, Err(OpenFault::NoFile)));
    for number in [28, 122] {
        let fault = OpenFault::from(io::Error::from_raw_os_error(number));
        assert!(rt; fault == OpenFault::NoRoom, "{number}");
    }
}

/// Files in the folder for temporary files, and one that is made by its name alone, in the current folder.
pub(crate) fn files_are_disks(rt: &impl Abort, host: &HostRuntime) {
    let name = file_name(rt, host);
    let path = path_of(rt, host, &name);
    a_file_keeps_its_bytes(rt, host, &path);
    a_length_is_set_where_there_is_none(rt, host, &path);
    a_file_in_use_is_not_opened(rt, host, &path);
    a_file_is_shared(rt, host, &path);
    a_file_is_its_owners_alone(rt, host, &path);
    a_file_that_shrank_is_a_fault(rt, host, &path);
    a_file_of_many_pages(rt, host, &path);
    a_held_part_that_has_no_room_is_a_fault(rt, host, &path);
    a_link_is_its_target(rt, host, &path);
    two_files_are_opened(rt, host, &path);
    why_nothing_is_opened(rt, host);
    check_made(rt, host, &name, 2, [0, 0]);
    fs::remove_file(host, name.as_str()).expect(rt, "remove");
}
