// Written by bindings/rust/extract from crates/intervallum/src/steps/intersection.rt.
//! The common members of two walks.

#[allow(unused_imports)]
use crate::rattle::prelude::*;
use super::union::{room_of, set_of};
use super::walk::Walk;
use crate::proved::intervallum::interval::Interval;
use crate::proved::intervallum::interval_set::IntervalSet;
use crate::proved::intervallum::ops::Bounded;
use crate::proved::intervallum::width::Width;
use crate::proved::ivl_merges::merges::intersection;
use crate::rattle::std::alloc::AllocError;

/// Returns the common members of the runs left in two walks. `O(n + m)` for these `n` and `m` runs:
/// advances at most once for each, and reserves as many runs once. The result has the allocator of
/// the first walk. Fails only if allocation fails.
///
/// ```
/// use intervallum::proved::examples::*;
///
/// fn main() -> Result<(), std::boxed::Box<dyn std::error::Error>> {
///     let alloc = Global;
///     let (a, b) = (IntervalSet::new(alloc, 1, 5)?, IntervalSet::new(alloc, 4, 9)?);
///     let both = common(Walk::new(&a), Walk::new(&b))?;
///     assert!(both == IntervalSet::new(alloc, 4, 5)?);
///     Ok(())
/// }
/// ```
///
/// # Proved
///
/// On success, the members are exactly those of the runs that are left in both walks, in at most as many runs as are left in the two together.
///
/// ```text
/// ensures members { IfOk result (λ L. IsRunsOf L (Intersection (Covers first.entry.left) (Covers second.entry.left))) }
/// ensures runs_at_most { IfOk result (λ L. length L ≤ length first.entry.left + length second.entry.left) }
/// ```
///
/// Words: [`IsRunsOf`](crate::definitions#IsRunsOf), [`Intersection`](crate::definitions#Intersection), [`Covers`](crate::definitions#Covers).
pub fn common<B: Width>(
    first: Walk<'_, B>,
    second: Walk<'_, B>,
) -> Result<IntervalSet<B>, AllocError> {
    let room = room_of(first.left(), second.left())?;
    let mut runs = Vec::with_capacity(first.alloc(), room)?;
    intersection(first.rest(), second.rest(), &mut runs);
    Ok(set_of(runs))
}

/// The first runs of two walks, if both have one.
pub(super) fn heads<B: Width>(
    first: &Walk<'_, B>,
    second: &Walk<'_, B>,
) -> Option<(Interval<B>, Interval<B>)> {
    second.in_whole();
    let a = first.peek()?;
    let b = second.peek()?;
    Some((a, b))
}

/// Whether the runs left in two walks have a member in common. Advances at most once for each of
/// these runs: `O(n + m)`. Stops at the first common member. Does not allocate.
pub(crate) fn have_common<B: Width>(mut first: Walk<'_, B>, mut second: Walk<'_, B>) -> bool {
    'walk: while let Some(runs) = heads(&first, &second) {
        let (a, b) = runs;
        if a.upper() < b.lower() {
            first.advance();
        } else if b.upper() < a.lower() {
            second.advance();
        } else {
            return true;
        }
    }
    false
}
