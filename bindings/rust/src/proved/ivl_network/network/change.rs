// Written by bindings/rust/extract from crates/ivl_network/src/network/change.rt.
//! What takes back a change of a network.

#[allow(unused_imports)]
use crate::rattle::prelude::*;
use crate::proved::intervallum::interval_set::IntervalSet;
use crate::proved::intervallum::width::Width;

/// What takes a change back.
pub(super) enum Change<B: Width> {
    /// The domain of this variable, which was this set, was replaced.
    Domain(usize, IntervalSet<B>),
    /// A variable was added after the others.
    Variable,
    /// A rule was added after the others.
    Require,
}
