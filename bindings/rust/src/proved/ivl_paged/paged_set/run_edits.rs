// Written by bindings/rust/extract from crates/ivl_paged/src/paged_set/run_edits.rt.
//! Edits by the runs of a list, one after the other, which are all made or none.
//!
//! An edit can fail only where it makes one run more. So those that do are made first. If one fails, those
//! that were made before it are undone: this makes fewer runs, and cannot fail. Then the others follow, and
//! cannot fail either.

#[allow(unused_imports)]
use crate::rattle::prelude::*;
use super::PagedSet;
use crate::proved::ivl_paged::touched::{one_above, one_below};
use crate::proved::intervallum::interval::Interval;
use crate::proved::intervallum::ops::Bounded;
use crate::proved::intervallum::width::Width;
use crate::rattle::std::alloc::AllocError;

impl<B: Width> PagedSet<B> {
    /// Adds the members of some runs. Returns an error, and leaves the set as it is, only if an allocation
    /// fails.
    pub(super) fn insert_runs(&mut self, runs: &[Interval<B>]) -> Result<(), AllocError> {
        self.insert_apart(runs)?;
        self.insert_each(runs);
        Ok(())
    }

    /// Removes the members of some runs. Returns an error, and leaves the set as it is, only if an
    /// allocation fails.
    pub(super) fn remove_runs(&mut self, runs: &[Interval<B>]) -> Result<(), AllocError> {
        self.remove_inside(runs)?;
        self.remove_each(runs);
        Ok(())
    }

    /// Adds those of some runs that no run overlaps or touches.
    fn insert_apart(&mut self, runs: &[Interval<B>]) -> Result<(), AllocError> {
        self.in_whole();
        let mut added = Vec::new(self.alloc);
        for run in runs {
            if self.insert_if_apart(*run, &mut added).is_err() {
                self.remove_each(&added);
                return Err(AllocError);
            }
        }
        Ok(())
    }

    /// Removes those of some runs that lie inside a run and split it.
    fn remove_inside(&mut self, runs: &[Interval<B>]) -> Result<(), AllocError> {
        self.in_whole();
        let mut removed = Vec::new(self.alloc);
        for run in runs {
            if self.remove_if_inside(*run, &mut removed).is_err() {
                self.insert_each(&removed);
                return Err(AllocError);
            }
        }
        Ok(())
    }

    /// Adds the members of an interval and writes it behind those that were added, unless a run overlaps or
    /// touches it.
    fn insert_if_apart(
        &mut self,
        interval: Interval<B>,
        added: &mut Vec<Interval<B>>,
    ) -> Result<(), AllocError> {
        if self.touches(&interval) {
            return Ok(());
        }
        added.reserve(1)?;
        self.insert_interval(interval)?;
        added.push_reserved(interval);
        Ok(())
    }

    /// Removes the members of an interval and writes it behind those that were removed, if it lies inside a
    /// run and splits it.
    fn remove_if_inside(
        &mut self,
        interval: Interval<B>,
        removed: &mut Vec<Interval<B>>,
    ) -> Result<(), AllocError> {
        if !self.has_inside(&interval) {
            return Ok(());
        }
        removed.reserve(1)?;
        self.remove_interval(interval)?;
        removed.push_reserved(interval);
        Ok(())
    }

    /// Adds the members of some intervals, each of which a run overlaps or touches.
    fn insert_each(&mut self, intervals: &[Interval<B>]) {
        self.in_whole();
        for interval in intervals {
            self.insert_interval(*interval).unwrap();
        }
    }

    /// Removes the members of some intervals, none of which lies inside a run and splits it.
    fn remove_each(&mut self, intervals: &[Interval<B>]) {
        self.in_whole();
        let mut left = intervals.len();
        // from the last, so that of the list of pages only those move that stay
        'intervals: while 0 < left {
            left -= 1;
            self.remove_interval(intervals[left]).unwrap();
        }
    }

    /// Whether an interval overlaps or touches a run.
    fn touches(&self, interval: &Interval<B>) -> bool {
        self.in_whole();
        interval.in_whole();
        let upper = one_above(interval.upper());
        match self.next_from(one_below(interval.lower())) {
            Some(next) => next <= upper,
            None => false,
        }
    }

    /// Whether an interval lies inside a run and meets neither of its ends.
    fn has_inside(&self, interval: &Interval<B>) -> bool {
        match self.run_at(interval.lower()) {
            Some(run) => run.lower() < interval.lower() && interval.upper() < run.upper(),
            None => false,
        }
    }
}
