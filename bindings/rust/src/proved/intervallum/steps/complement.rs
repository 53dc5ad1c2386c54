// Written by bindings/rust/extract from crates/intervallum/src/steps/complement.rt.
//! The numbers of the range that are no members of a set.

#[allow(unused_imports)]
use crate::rattle::prelude::*;
use super::union::room_of;
use crate::proved::intervallum::interval::Interval;
use crate::proved::intervallum::interval_set::IntervalSet;
use crate::proved::intervallum::ops::{Cardinality, Whole};
use crate::proved::intervallum::width::{SizeNumber, Width};
use crate::proved::ivl_merges::merges::complement;
use crate::rattle::std::alloc::AllocError;

/// The numbers of the range that are no members of a set. Advances once for each run, and reserves
/// one run more once. The result has the allocator of the set. Fails only if allocation fails.
pub(crate) fn gaps<B: Width>(set: &IntervalSet<B>) -> Result<IntervalSet<B>, AllocError> {
    set.in_whole();
    let list = set.as_runs();
    let room = room_of(list.len(), 1)?;
    let mut runs = Vec::with_capacity(set.allocator(), room)?;
    complement(list, &mut runs);
    let all = Interval::<B>::whole().size();
    // a number of the range is a member or is in a gap
    let size = all.checked_sub(set.size()).unwrap();
    Ok(IntervalSet::of_runs(runs, size).fitted())
}
