//! A clock and a standard error that are kept in memory, over the network of the system.
use std::alloc::Global;
use std::cell::{Cell, RefCell};
use std::fmt::Display;
use std::io;
use std::net::{self, SocketAddr, TcpListener, TcpStream};
use std::process::Abort;
use std::rt::Clock;
use std::time::Duration;

/// A clock that goes on only where somebody sleeps, and the lines that were printed. All that is dialed or bound is the system's.
#[derive(Drop)]
pub(crate) struct Staged<'a> {
    alloc: Global,
    host: &'a HostRuntime,
    // The clock, in milliseconds.
    now: Cell<u64>,
    // The sleeps, each in milliseconds.
    sleeps: RefCell<Vec<u64>>,
    lines: RefCell<Vec<String>>,
}

impl<'a> Staged<'a> {
    /// One at which nothing happened yet.
    pub(crate) fn over(alloc: Global, host: &'a HostRuntime) -> Staged<'a> {
        Staged {
            alloc,
            host,
            now: Cell::new(5_000),
            sleeps: RefCell::new(Vec::new(alloc)),
            lines: RefCell::new(Vec::new(alloc)),
        }
    }

    /// Lets so many milliseconds pass.
    pub(crate) fn pass(&self, millis: u64) {
        self.now.set(self.now.get().saturating_add(millis));
    }

    /// Takes what was slept so far, in milliseconds.
    pub(crate) fn take_sleeps(&self, rt: &impl Abort) -> Vec<u64> {
        let taken = self.sleeps.try_replace(Vec::new(self.alloc));
        taken.expect(rt, "nobody holds the sleeps")
    }

    /// Takes the lines that were printed so far.
    pub(crate) fn take_lines(&self, rt: &impl Abort) -> Vec<String> {
        let taken = self.lines.try_replace(Vec::new(self.alloc));
        taken.expect(rt, "nobody holds the lines")
    }
}

impl Clock for Staged<'_> {
    fn monotonic(&self) -> io::Result<Duration> {
        Ok(Duration::from_millis(self.now.get()))
    }

    fn since_1970(&self) -> io::Result<Duration> {
        Ok(Duration::from_millis(self.now.get()))
    }

    fn sleep(&self, duration: Duration) {
        let millis = u64::try_from(duration.as_millis()).unwrap_or(u64::MAX);
        self.pass(millis);
        if let Ok(mut sleeps) = self.sleeps.try_borrow_mut() {
            let _ = sleeps.push(millis);
        }
    }
}

impl Eprint for Staged<'_> {
    fn eprint<D: Display + Drop>(&self, value: D) -> io::Result<()> {
        self.eprintln(value)
    }

    fn eprintln<D: Display + Drop>(&self, value: D) -> io::Result<()> {
        let line = format!(in self.alloc; "{value}")?;
        if let Ok(mut lines) = self.lines.try_borrow_mut() {
            lines.push(line)?;
        }
        Ok(())
    }
}

impl net::Net for Staged<'_> {
    type Stream = TcpStream;

    type Listener = TcpListener;

    fn bind(&self, addr: SocketAddr) -> io::Result<TcpListener> {
        TcpListener::bind(self.host, addr)
    }

    fn connect(&self, addr: SocketAddr) -> io::Result<TcpStream> {
        TcpStream::connect(self.host, addr)
    }

    fn connect_timeout(&self, addr: SocketAddr, timeout: Duration) -> io::Result<TcpStream> {
        TcpStream::connect_timeout(self.host, &addr, timeout)
    }
}
