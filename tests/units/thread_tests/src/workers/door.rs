//! The door of a worker.
use edge_io::{AcceptFault, Door, MemDoor, MemLink, Proto};
use event_form::Talk;
use std::alloc::AllocError;

/// A door in memory. A starved one lets a link go, and then reports that it found no memory. To contracts it doesn't tell its links.
#[derive(Drop)]
pub(crate) struct TestDoor {
    pub(crate) door: MemDoor,
    pub(crate) starved: bool,
}

impl Door for TestDoor {
    ghost use Rattle.std.specs.Prelude.{None};
    ghost use Rattle.edge_io.specs.MemDoor.{state_of};

    type L = MemLink;

    ghost told = { λ d. record (state_of d.door) { talks = None } };

    ghost permits = { λ _ _ _ _. Unit {0} };

    fn accept(&mut self, conn: u64) -> Result<Option<MemLink>, AcceptFault> {
        self.door.accept(conn)
    }

    fn give_back(
        &mut self,
        link: MemLink,
        proto: Proto,
        conn: u64,
        status: u8,
        talk: Talk,
    ) -> Result<(), AllocError> {
        self.door.give_back(link, proto, conn, status, talk)?;
        if self.starved {
            return Err(AllocError);
        }
        Ok(())
    }
}
