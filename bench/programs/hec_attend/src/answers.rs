//! A sink that counts.
ghost use Rattle.std.specs.Prelude.{◌≡◌};

use edge_io::{Object, Sink, WriteFault};

/// A sink that takes all, keeps nothing, and counts the pieces and their bytes.
#[derive(Drop)]
pub struct Answers {
    pieces: u64,
    bytes: u64,
}

impl Answers {
    pub fn new() -> Answers {
        Answers {
            pieces: 0,
            bytes: 0,
        }
    }

    /// How many pieces were taken.
    pub fn answers(&self) -> u64 {
        self.pieces
    }
}

impl Object for Answers {
    ghost same = { λ _ _. Unit {0} };

    ghost same_refl = { λ _. tt };

    ghost same_trans = { λ _ _ _ _ _. tt };
}

impl Sink for Answers {
    ghost use Rattle.std.specs.Prelude.{None};

    ghost taken = { λ _. None };

    ghost write_faults = { λ _. 0 };

    ghost write_apart = { λ _ _. Unit {0} };

    ghost apart_refl = { λ _. tt };

    ghost apart_trans = { λ _ _ _ _ _. tt };

    fn write(&mut self, piece: &[u8]) -> Result<usize, WriteFault> {
        self.pieces = self.pieces.wrapping_add(1);
        self.bytes = self.bytes.wrapping_add(piece.len() as u64);
        Ok(piece.len())
    }
}
