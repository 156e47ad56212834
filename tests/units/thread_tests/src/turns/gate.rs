//! A disk of which a sync waits at a gate until a test opens it.
use edge_disk::{Disk, DiskFault};
use std::rt::Clock;
use std::sync::atomic::{AtomicBool, Ordering};
use std::thread;
use std::time::Duration;

// How often a thread looks whether a mark is set, a millisecond apart. Then it gives up.
const LOOKS: u32 = 10_000;

/// What one thread sets, once, and others wait for.
#[derive(Drop)]
pub(crate) struct Mark {
    set: AtomicBool,
}

impl Mark {
    /// A mark that isn't set.
    pub(crate) fn new() -> Mark {
        Mark {
            set: AtomicBool::new(false),
        }
    }

    pub(crate) fn set(&self) {
        self.set.store(true, Ordering::SeqCst);
    }

    pub(crate) fn is_set(&self) -> bool {
        self.set.load(Ordering::SeqCst)
    }

    /// Waits until it is set, for some ten seconds at most, and says whether it was.
    pub(crate) fn comes(&self, rt: &impl Clock) -> bool {
        for _ in 0..LOOKS {
            if self.is_set() {
                return true;
            }
            thread::sleep(rt, Duration::from_millis(1));
        }
        false
    }
}

/// A gate that a test shuts and opens, once each. Its marks are set in their order.
#[derive(Drop)]
pub(crate) struct Gate {
    /// A sync that begins waits from now on.
    pub(crate) shut: Mark,
    /// One waits.
    pub(crate) reached: Mark,
    /// None waits any more.
    pub(crate) open: Mark,
    /// One waited for as long as a mark is waited for, and went on.
    pub(crate) forced: Mark,
}

impl Gate {
    /// A gate that isn't shut yet.
    pub(crate) fn new() -> Gate {
        Gate {
            shut: Mark::new(),
            reached: Mark::new(),
            open: Mark::new(),
            forced: Mark::new(),
        }
    }

    // Waits where it is shut, for some ten seconds at most.
    fn wait(&self, rt: &impl Clock) {
        if !self.shut.is_set() || self.forced.is_set() {
            return;
        }
        self.reached.set();
        if !self.open.comes(rt) {
            self.forced.set();
        }
    }
}

/// A disk whose syncs wait at a gate.
#[derive(Drop)]
pub(crate) struct GatedDisk<'a, D, R> {
    pub(crate) disk: D,
    pub(crate) gate: &'a Gate,
    pub(crate) rt: &'a R,
}

impl<D: Disk, R: Clock> Disk for GatedDisk<'_, D, R> {
    ghost tells = { D.tells };

    ghost tells_images = { λ d. D.tells_images d.disk };

    ghost moment = { λ d. D.moment d.disk };

    ghost may_release = { D.may_release };

    ghost may_tear = { λ d at n. D.may_tear d.disk at n };

    ghost reads_too = { λ d images. D.reads_too d.disk images };

    ghost fits = { λ d. D.fits d.disk };

    ghost lawful = { λ d tells. D.lawful d.disk tells };

    ghost stands_in = { λ d t c tells. D.stands_in d.disk t c tells };

    fn len(&self) -> u64 {
        self.disk.len()
    }

    fn read_at(&mut self, at: u64, buf: &mut [u8]) -> Result<(), DiskFault> {
        self.disk.read_at(at, buf)
    }

    fn write_at(&mut self, at: u64, piece: &[u8]) -> Result<(), DiskFault> {
        self.disk.write_at(at, piece)
    }

    fn sync(&mut self) -> Result<(), DiskFault> {
        self.gate.wait(self.rt);
        self.disk.sync()
    }
}
