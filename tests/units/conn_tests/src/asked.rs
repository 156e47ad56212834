//! A source that notes how many bytes its reads ask for.
use edge_io::{Object, ReadFault, Source};

/// It gives what another source gives.
#[derive(Drop)]
pub(crate) struct Asked<S> {
    source: S,
    /// How many bytes a read asked for at least.
    pub(crate) fewest: usize,
    /// How many one asked for at most.
    pub(crate) most: usize,
}

impl<S> Asked<S> {
    /// A source of which nothing was read.
    pub(crate) fn of(source: S) -> Asked<S> {
        Asked {
            source,
            fewest: usize::MAX,
            most: 0,
        }
    }
}

impl<S: Object> Object for Asked<S> {
    ghost same = { λ x y. S.same x.source y.source };

    ghost same_refl = { λ x. S.same_refl x.source };

    ghost same_trans = { λ x y z p q. S.same_trans x.source y.source z.source p q };
}

impl<S: Source> Source for Asked<S> {
    ghost given = { λ asked. S.given asked.source };

    ghost left = { λ asked. S.left asked.source };

    ghost read_faults = { λ asked. S.read_faults asked.source };

    ghost read_apart = { λ x y. S.read_apart x.source y.source };

    ghost read_apart_refl = { λ x. S.read_apart_refl x.source };

    ghost read_apart_trans = { λ x y z p q. S.read_apart_trans x.source y.source z.source p q };

    fn read(&mut self, buf: &mut [u8]) -> Result<usize, ReadFault> {
        self.fewest = self.fewest.min(buf.len());
        self.most = self.most.max(buf.len());
        self.source.read(buf)
    }
}
