//! Calls that the proved paged set lacks, made of those that it has, and those that it alone has.
use super::conditions::contract;
use super::reads::as_range;
use super::{PagedSet, iterators::PagedRunsWithin};
use crate::proved::ivl_paged::PagedSet as ProvedPagedSet;
use crate::proved::ops::{Intersection, Range};
use crate::proved::width::Width;
use crate::proved::{AllocError, Global, Interval, IntervalSet as ProvedIntervalSet, sweep::coalesce};
use alloc::vec::Vec;
use core::ops::RangeInclusive;

/// Calls that a proved set has if its runs stand in one list.
pub(super) trait Lacking<T: Width>: Sized {
    fn is_singleton(&self) -> bool;
}

/// A proved set that is made of one list of runs.
pub(super) trait OfList<T: Width>: Sized {
    fn of_list(list: ProvedIntervalSet<T>) -> Result<Self, AllocError>;
}

impl<T: Width> OfList<T> for ProvedIntervalSet<T> {
    fn of_list(list: ProvedIntervalSet<T>) -> Result<Self, AllocError> {
        Ok(list)
    }
}

impl<T: Width> OfList<T> for ProvedPagedSet<T> {
    fn of_list(list: ProvedIntervalSet<T>) -> Result<Self, AllocError> {
        ProvedPagedSet::of_set(&list)
    }
}

/// The runs that overlap an interval.
fn runs_within<'a, T: Width>(
    set: &'a ProvedPagedSet<T>,
    interval: &Interval<T>,
) -> impl Iterator<Item = Interval<T>> + use<'a, T> {
    PagedRunsWithin::of(Some(set), interval).map(|run| Interval::new(*run.start(), *run.end()))
}

/// The paged set of intervals.
fn made_of<T: Width>(intervals: Vec<Interval<T>>) -> Result<ProvedPagedSet<T>, AllocError> {
    ProvedPagedSet::of_set(&coalesce(Global, intervals.into())?)
}

impl<T: Width> Lacking<T> for ProvedPagedSet<T> {
    fn is_singleton(&self) -> bool {
        self.interval_count() == 1 && self.first() == self.last()
    }
}

impl<T: Width> Intersection<Interval<T>> for ProvedPagedSet<T> {
    type Output = Result<Self, AllocError>;

    fn intersection(&self, interval: &Interval<T>) -> Result<Self, AllocError> {
        made_of(runs_within(self, interval).map(|run| Intersection::intersection(&run, interval)).collect())
    }
}

/// Calls of sets in pages alone.
impl<T: Width> PagedSet<T> {
    /// Returns the longest run, and the lowest of these if there are several; `None` if the set is empty. Reads one number of each
    /// page, and the runs of one.
    ///
    /// ```
    /// # use intervallum::PagedSet;
    /// assert_eq!(PagedSet::from([1..=2, 5..=9, 12..=16]).longest_run(), Some(5..=9));
    /// ```
    #[doc = contract!(PagedSet "longest_run")]
    #[must_use]
    pub fn longest_run(&self) -> Option<RangeInclusive<T>> {
        self.0.as_ref()?.longest_run().as_ref().map(as_range)
    }
}
