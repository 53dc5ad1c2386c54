// Written by bindings/rust/extract from crates/intervallum/src/steps/union.rt.
//! Merges the runs of two walks.

#[allow(unused_imports)]
use crate::rattle::prelude::*;
use super::walk::Walk;
use crate::proved::intervallum::interval::Interval;
use crate::proved::intervallum::interval_set::IntervalSet;
use crate::proved::intervallum::interval_set::run_lists::size_of_runs;
use crate::proved::intervallum::width::Width;
use crate::proved::ivl_merges::merges::union;
use crate::rattle::std::alloc::AllocError;

/// Returns the members of the runs left in either walk. `O(n + m)` for these `n` and `m` runs:
/// advances once for each, and reserves as many runs once. The result has the allocator of the first
/// walk. Fails only if allocation fails.
///
/// ```
/// use intervallum::proved::examples::*;
///
/// fn main() -> Result<(), std::boxed::Box<dyn std::error::Error>> {
///     let alloc = Global;
///     let (a, b) = (IntervalSet::new(alloc, 1, 5)?, IntervalSet::new(alloc, 4, 9)?);
///     let either = unite(Walk::new(&a), Walk::new(&b))?;
///     assert!(either == IntervalSet::new(alloc, 1, 9)?);
///     Ok(())
/// }
/// ```
///
/// # Proved
///
/// On success, the members are exactly those of the runs that are left in either walk, in at most as many runs as are left in the two together.
///
/// ```text
/// ensures members { IfOk result (λ L. IsRunsOf L (Union (Covers first.entry.left) (Covers second.entry.left))) }
/// ensures runs_at_most { IfOk result (λ L. length L ≤ length first.entry.left + length second.entry.left) }
/// ```
///
/// Words: [`IsRunsOf`](crate::definitions#IsRunsOf), [`Union`](crate::definitions#Union), [`Covers`](crate::definitions#Covers).
pub fn unite<B: Width>(
    first: Walk<'_, B>,
    second: Walk<'_, B>,
) -> Result<IntervalSet<B>, AllocError> {
    let room = room_of(first.left(), second.left())?;
    let mut runs = Vec::with_capacity(first.alloc(), room)?;
    union(first.rest(), second.rest(), &mut runs);
    Ok(set_of(runs))
}

/// Room for as many runs as two lists have: no memory holds more runs than a `usize` counts.
pub(super) fn room_of(n: usize, m: usize) -> Result<usize, AllocError> {
    n.checked_add(m).ok_or(AllocError)
}

/// The set of a list of runs.
pub(super) fn set_of<B: Width>(runs: Vec<Interval<B>>) -> IntervalSet<B> {
    let size = size_of_runs(&runs);
    IntervalSet::of_runs(runs, size).fitted()
}
