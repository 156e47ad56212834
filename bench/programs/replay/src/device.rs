//! A disk in memory with an empty spool, and the calls by which groups are stored there.
use anyhow::bail;
use edge_disk::Disk;
use edge_memory::MemDisk;
use spool_log::{Opening, Spool, format};
use std::alloc::{AllocError, Global};

const SLOTS: u32 = 8;

/// How many bytes a slot has.
const SIZE: u64 = 18 << 20;

/// A disk of zero bytes that is long enough for the slots.
pub fn empty_disk(alloc: Global) -> Result<MemDisk, AllocError> {
    MemDisk::plain(alloc, 12_288 + u64::from(SLOTS) * SIZE)
}

/// A disk made an empty spool, and opened for storing.
pub fn empty_spool(alloc: Global) -> anyhow::Result<Spool<MemDisk>> {
    let mut disk = empty_disk(alloc)?;
    if format(&mut disk, SLOTS, SIZE).is_err() {
        bail!("no empty spool");
    }
    match Spool::recover(alloc, disk, Opening::Raise) {
        Ok(spool) => Ok(spool),
        Err(_) => bail!("the spool was not opened"),
    }
}

/// Four calls: the group's bytes and a closed gate, a sync, the gate before them, a sync.
fn store_group(disk: &mut MemDisk, at: u64, group: &[u8]) -> bool {
    let size = group.len() as u64;
    if at >= disk.len() || size >= disk.len() - at {
        return false;
    }
    disk.write_at(at + 1, group).is_ok()
        && disk.sync().is_ok()
        && disk.write_at(at, &[1]).is_ok()
        && disk.sync().is_ok()
}

/// Makes the calls that so many groups need, each of so many events of so many bytes.
pub fn store(disk: &mut MemDisk, groups: u64, events: u32, data: usize) -> anyhow::Result<()> {
    let mut group = [0; 65_536];
    let size = (events.min(1000) as usize * (data.min(1000) + 29) + 9).min(group.len());
    let mut at = 12_305;
    for _ in 0..groups {
        if at > 1 << 40 || !store_group(disk, at, &group[..size]) {
            bail!("the disk is full");
        }
        at += size as u64;
        group[7] = (at % 256) as u8;
    }
    Ok(())
}
