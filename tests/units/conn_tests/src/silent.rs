//! A link whose peer is silent after each read.
use edge_io::{Link, Object, ReadFault, Sink, Source, WriteFault};

/// It gives and takes what another link does.
#[derive(Drop)]
pub(crate) struct Silent<L> {
    pub(crate) link: L,
}

impl<L: Object> Object for Silent<L> {
    ghost same = { λ x y. L.same x.link y.link };

    ghost same_refl = { λ x. L.same_refl x.link };

    ghost same_trans = { λ x y z p q. L.same_trans x.link y.link z.link p q };
}

impl<L: Source> Source for Silent<L> {
    ghost given = { λ silent. L.given silent.link };

    ghost left = { λ silent. L.left silent.link };

    ghost read_faults = { λ silent. L.read_faults silent.link };

    ghost read_apart = { λ x y. L.read_apart x.link y.link };

    ghost read_apart_refl = { λ x. L.read_apart_refl x.link };

    ghost read_apart_trans = { λ x y z p q. L.read_apart_trans x.link y.link z.link p q };

    fn read(&mut self, buf: &mut [u8]) -> Result<usize, ReadFault> {
        self.link.read(buf)
    }
}

impl<L: Sink> Sink for Silent<L> {
    ghost taken = { λ silent. L.taken silent.link };

    ghost permits = { λ silent text. L.permits silent.link text };

    ghost write_faults = { λ silent. L.write_faults silent.link };

    ghost write_apart = { λ x y. L.write_apart x.link y.link };

    ghost permits_last = { λ x y p. L.permits_last x.link y.link p };

    ghost apart_refl = { λ x. L.apart_refl x.link };

    ghost apart_trans = { λ x y z p q. L.apart_trans x.link y.link z.link p q };

    fn write(&mut self, piece: &[u8]) -> Result<usize, WriteFault> {
        self.link.write(piece)
    }
}

impl<L: Link> Link for Silent<L> {
    ghost dialed = { λ silent. L.dialed silent.link };

    fn claim(&mut self, bytes: u64) {
        self.link.claim(bytes);
    }

    fn is_silent(&self) -> bool {
        true
    }

    ghost reads_keep = { λ x y same. L.reads_keep x.link y.link same };

    ghost writes_keep = { λ x y same. L.writes_keep x.link y.link same };
}
