// Written by bindings/rust/extract from crates/ivl_ranges/src/access.rt.
//! Accesses `a[i + k]`, given a set of values for each of `i` and `k`.

#[allow(unused_imports)]
use crate::rattle::prelude::*;
use crate::proved::intervallum::interval::Interval;
use crate::proved::intervallum::interval_set::IntervalSet;
use crate::proved::intervallum::ops::{Bounded, Intersection, IsEmpty, Range, Subset};
use crate::rattle::std::alloc::AllocError;

/// Returns true if and only if `i + k` is an index of an array of this length for all members `i` of
/// `index` and `k` of `offset`. `O(1)`. Does not allocate.
pub fn is_safe(index: &IntervalSet<i64>, offset: &IntervalSet<i64>, length: u32) -> bool {
    if offset.is_empty() {
        return true;
    }
    index.in_whole();
    index.hull().is_subset(&window(offset, length))
}

/// Returns the members `i` of `index` for which `i + k` is an index of an array of this length for every member `k` of
/// `offset`, so all of `index` if `offset` is empty.
///
/// `O(n)` for the `n` runs of `index`. Fails only if allocation fails.
pub fn safe_indexes(
    index: &IntervalSet<i64>,
    offset: &IntervalSet<i64>,
    length: u32,
) -> Result<IntervalSet<i64>, AllocError> {
    if offset.is_empty() {
        return index.try_clone();
    }
    let window = window(offset, length);
    index.in_whole();
    index.intersection(&window)
}

/// The numbers whose sum with every member of a set is an index, as far as they are values of `i64`.
fn window(offset: &IntervalSet<i64>, length: u32) -> Interval<i64> {
    let last = i64::from(length) - 1;
    let (lower, upper) = (offset.lower(), offset.upper());
    if upper < last - i64::MAX {
        return Interval::new(-lower, i64::MAX);
    }
    Interval::new(-lower, last - upper)
}
