//! A disk that counts what is read of it, for the tests.
ghost use Rattle.std.specs.Prelude.{◌≡◌};

use edge_disk::{Disk, DiskFault};

/// A disk as it is, with a count of the reads that were asked of it, and of their bytes.
#[derive(Drop)]
pub(crate) struct CountingDisk<D> {
    pub disk: D,
    pub reads: u64,
    pub bytes: u64,
}

impl<D: Disk> Disk for CountingDisk<D> {
    ghost tells = { D.tells };

    ghost tells_images = { λ d. D.tells_images d.disk };

    ghost moment = { λ d. D.moment d.disk };

    ghost may_release = { D.may_release };

    ghost may_tear = { λ d at n. D.may_tear d.disk at n };

    ghost reads_too = { λ d images. D.reads_too d.disk images };

    ghost fits = { λ d. D.fits d.disk };

    ghost lawful = { λ d tells. D.lawful d.disk tells };

    ghost stands_in = { λ d t c tells. D.stands_in d.disk t c tells };

    fn len(&self) -> u64 {
        self.disk.len()
    }

    fn read_at(&mut self, at: u64, buf: &mut [u8]) -> Result<(), DiskFault> {
        self.reads = self.reads.saturating_add(1);
        self.bytes = self.bytes.saturating_add(buf.len() as u64);
        self.disk.read_at(at, buf)
    }

    fn write_at(&mut self, at: u64, piece: &[u8]) -> Result<(), DiskFault> {
        self.disk.write_at(at, piece)
    }

    fn sync(&mut self) -> Result<(), DiskFault> {
        self.disk.sync()
    }
}
