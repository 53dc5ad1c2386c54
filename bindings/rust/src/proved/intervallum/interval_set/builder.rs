// Written by bindings/rust/extract from crates/intervallum/src/interval_set/builder.rt.
//! How a set is built: from a list of runs and its size, or by pushing runs at its end.

#[allow(unused_imports)]
use crate::rattle::prelude::*;
use super::IntervalSet;
use crate::proved::intervallum::interval::Interval;
use crate::proved::intervallum::width::{SizeNumber, Width};
use crate::proved::ivl_merges::merges::push_joined;
use crate::rattle::std::alloc::{AllocError, Global};

/// How many more runs a result may have room for, however few it has: to move so few takes longer
/// than their memory is worth.
const FREE: usize = 16;

impl<B: Width> IntervalSet<B> {
    /// The runs as a slice.
    pub(crate) fn as_runs(&self) -> &[Interval<B>] {
        &self.intervals
    }

    /// The runs by value.
    pub(crate) fn into_runs(self) -> Vec<Interval<B>> {
        self.intervals
    }

    /// Returns the allocator that the set uses. `O(1)`. Does not allocate.
    ///
    /// ```
    /// use intervallum::proved::examples::*;
    ///
    /// fn main() -> Result<(), std::boxed::Box<dyn std::error::Error>> {
    ///     let alloc = Global;
    ///     let a = IntervalSet::new(alloc, 1, 2)?;
    ///     let b = IntervalSet::singleton(a.allocator(), 3)?;
    ///     assert!(!a.overlap(&b));
    ///     Ok(())
    /// }
    /// ```
    pub fn allocator(&self) -> Global {
        *self.intervals.allocator()
    }

    /// Returns the empty set, with room for a number of runs.
    pub(crate) fn with_room(alloc: Global, runs: usize) -> Result<Self, AllocError> {
        Ok(IntervalSet {
            intervals: Vec::with_capacity(alloc, runs)?,
            size: <B::Output as SizeNumber>::zero(),
        })
    }

    /// The set of a list of runs, and of how many numbers they cover.
    pub(crate) fn of_runs(intervals: Vec<Interval<B>>, size: B::Output) -> Self {
        IntervalSet { intervals, size }
    }

    /// The same set, shrunk if less than half of its capacity, rounded down, is used, and more than
    /// `FREE` runs would fit beside it. If shrinking fails, it keeps its capacity.
    pub(crate) fn fitted(mut self) -> Self {
        let (count, capacity) = (self.intervals.len(), self.intervals.capacity());
        if capacity / 2 > count && capacity - count > FREE {
            self.intervals.shrink_to_fit();
        }
        self
    }
}

/// Adds a run that starts no lower than the last one, in room that is reserved, and returns the run
/// that is then the last.
pub(crate) fn add_reserved<B: Width>(
    runs: &mut Vec<Interval<B>>,
    last: Interval<B>,
    run: Interval<B>,
) -> Interval<B> {
    last.in_whole();
    run.in_whole();
    push_joined(runs, last, run)
}

/// A size and some more. The sum is a size again.
pub(crate) fn grown<B: Width>(size: B::Output, more: B::Output) -> B::Output {
    size.add_in_range(more)
}
