// Written by bindings/rust/extract from crates/intervallum/src/steps/differences.rt.
//! The members that one of two walks, or of two sets, has and the other does not.

#[allow(unused_imports)]
use crate::rattle::prelude::*;
use super::union::{room_of, set_of};
use super::walk::Walk;
use crate::proved::intervallum::interval_set::IntervalSet;
use crate::proved::intervallum::width::Width;
use crate::proved::ivl_merges::merges::{difference, symmetric_difference};
use crate::rattle::std::alloc::AllocError;

/// The members that the first walk has left and the second does not. Advances at most once for each
/// run left in the two, and reserves as many runs once. The result has the allocator of the first
/// walk. Fails only if allocation fails.
pub(crate) fn without<B: Width>(
    first: Walk<'_, B>,
    second: Walk<'_, B>,
) -> Result<IntervalSet<B>, AllocError> {
    let room = room_of(first.left(), second.left())?;
    let mut runs = Vec::with_capacity(first.alloc(), room)?;
    difference(first.rest(), second.rest(), &mut runs);
    Ok(set_of(runs))
}

/// The members that exactly one of two sets has. Takes at most one step for each of their runs, and
/// reserves as many runs once. The result has the allocator of the first set. Fails only if
/// allocation fails.
pub(crate) fn one_alone<B: Width>(
    first: &IntervalSet<B>,
    second: &IntervalSet<B>,
) -> Result<IntervalSet<B>, AllocError> {
    let (a, b) = (first.as_runs(), second.as_runs());
    let room = room_of(a.len(), b.len())?;
    let mut runs = Vec::with_capacity(first.allocator(), room)?;
    symmetric_difference(a, b, &mut runs);
    Ok(set_of(runs))
}
