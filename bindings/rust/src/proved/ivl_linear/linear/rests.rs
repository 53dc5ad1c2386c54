// Written by bindings/rust/extract from crates/ivl_linear/src/linear/rests.rt.
//! What is left of one domain; `None` stands for a domain that loses no member.

#[allow(unused_imports)]
use crate::rattle::prelude::*;
use crate::proved::intervallum::interval::Interval;
use crate::proved::intervallum::interval_set::IntervalSet;
use crate::proved::intervallum::ops::{Bounded, Contains, Difference, Disjoint, Intersection, IsEmpty};
use crate::proved::intervallum::width::Width;
use crate::rattle::std::alloc::AllocError;

/// The members of a set in an interval, or `None` if all are. A look at the ends of the set and, where some are lost, a binary search
/// and a copy of what is left.
pub(super) fn rest_within<B: Width>(
    set: &IntervalSet<B>,
    window: Interval<B>,
) -> Result<Option<IntervalSet<B>>, AllocError> {
    if lies_in(set, window) {
        return Ok(None);
    }
    Ok(Some(set.intersection(&window)?))
}

/// Whether each member of a set lies in an interval: a look at the ends of the set.
pub(super) fn lies_in<B: Width>(set: &IntervalSet<B>, window: Interval<B>) -> bool {
    set.is_empty() || (window.contains(&set.lower()) && window.contains(&set.upper()))
}

/// The members of a set outside an interval, or `None` if all are. A binary search and, where some are lost, a copy of what is left.
pub(super) fn rest_outside<B: Width>(
    set: &IntervalSet<B>,
    window: Interval<B>,
) -> Result<Option<IntervalSet<B>>, AllocError> {
    if set.is_disjoint(&window) {
        return Ok(None);
    }
    Ok(Some(set.difference(&window)?))
}

/// The empty set, or `None` if the set is empty. Does not allocate.
pub(super) fn rest_of_none<B: Width>(set: &IntervalSet<B>) -> Option<IntervalSet<B>> {
    if set.is_empty() {
        return None;
    }
    Some(IntervalSet::empty(set.allocator()))
}
