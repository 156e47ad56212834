//! Desks: what generic code is told of their calls, and answers worked out by hand.
pub(crate) mod bounds;
pub(crate) mod desks;
pub(crate) mod fronts;
pub(crate) mod rows;
pub(crate) mod stops;
