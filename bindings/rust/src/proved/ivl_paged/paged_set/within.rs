// Written by bindings/rust/extract from crates/ivl_paged/src/paged_set/within.rt.
//! What a set has within a window: the whole runs that meet it, how many members lie in it, and the gaps.

#[allow(unused_imports)]
use crate::rattle::prelude::*;
use super::PagedSet;
use super::iter::{Runs, runs_of_parts};
use crate::proved::ivl_paged::pages;
use crate::proved::intervallum::interval::Interval;
use crate::proved::intervallum::interval_set::IntervalSet;
use crate::proved::intervallum::ops::{Difference, IsEmpty};
use crate::proved::intervallum::width::{SizeNumber, Width};
use crate::rattle::std::alloc::{AllocError, Global};

impl<B: Width> PagedSet<B> {
    /// Returns a double-ended iterator over the runs that overlap the window. The first and the last
    /// are whole, so they may reach beyond the window. An empty window overlaps none.
    ///
    /// Binary searches for the pages of both ends and in them: `O(log n)`. Does not allocate.
    ///
    /// ```
    /// use intervallum::proved::examples::*;
    ///
    /// fn main() -> Result<(), std::boxed::Box<dyn std::error::Error>> {
    ///     let alloc = Global;
    ///     let list: IntervalSet<i32> = [(1, 2), (5, 6), (9, 9)].to_interval_set(alloc)?;
    ///     let a = PagedSet::of_set(&list)?;
    ///     let mut met = a.runs_within(&Interval::new(2, 5));
    ///     assert!(met.next() == Some(Interval::new(1, 2)));
    ///     assert!(met.next() == Some(Interval::new(5, 6)) && met.next().is_none());
    ///     assert!(a.runs_within(&Interval::new(3, 4)).next().is_none());
    ///     Ok(())
    /// }
    /// ```
    ///
    /// # Proved
    ///
    /// The iterator yields exactly the runs that overlap the window, whole and in order.
    ///
    /// ```text
    /// ensures members { IsRunsOf result (OfRunsThatMeet (IsBetween window.now) (Covers self.now)) }
    /// ensures overlap { All (λ run. HasSome (Intersection (IsBetween run) (IsBetween window.now))) result }
    /// ensures within { IsRunListIn B.whole result }
    /// ```
    ///
    /// Words: [`IsRunsOf`](crate::definitions#IsRunsOf), [`OfRunsThatMeet`](crate::definitions#OfRunsThatMeet), [`IsBetween`](crate::definitions#IsBetween), [`Covers`](crate::definitions#Covers), [`HasSome`](crate::definitions#HasSome), [`Intersection`](crate::definitions#Intersection), [`IsRunListIn`](crate::definitions#IsRunListIn).
    pub fn runs_within(&self, window: &Interval<B>) -> Runs<'_, B> {
        runs_of_parts(pages::met_by(&self.pages, window), window)
    }

    /// Returns the number of members that lie in the window, which may be empty. Never overflows.
    ///
    /// Binary searches for the pages of both ends, scans the runs of these two, and adds up what each
    /// page between has: `O(log n + k / page)` for `k` runs that overlap the window. Does not allocate.
    ///
    /// ```
    /// use intervallum::proved::examples::*;
    ///
    /// fn main() -> Result<(), std::boxed::Box<dyn std::error::Error>> {
    ///     let alloc = Global;
    ///     let list: IntervalSet<i32> = [(1, 2), (5, 6), (9, 9)].to_interval_set(alloc)?;
    ///     let a = PagedSet::of_set(&list)?;
    ///     assert_eq!(a.size_within(&Interval::new(2, 5)), 2u32);
    ///     assert_eq!(a.size_within(&Interval::empty()), 0u32);
    ///     Ok(())
    /// }
    /// ```
    ///
    /// # Proved
    ///
    /// The result is the number of members that are in the window.
    ///
    /// ```text
    /// ensures { IsCountOf (B.Output.size result) (Intersection (Covers self.now) (IsBetween window.now)) }
    /// ```
    ///
    /// Words: [`IsCountOf`](crate::definitions#IsCountOf), [`Intersection`](crate::definitions#Intersection), [`Covers`](crate::definitions#Covers), [`IsBetween`](crate::definitions#IsBetween).
    pub fn size_within(&self, window: &Interval<B>) -> B::Output {
        if window.is_empty() {
            return <B::Output as SizeNumber>::zero();
        }
        pages::size_of_parts(pages::met_by(&self.pages, window), window)
    }

    /// Returns the numbers of the window that are not members, in one list. Fails only if allocation
    /// fails.
    ///
    /// `O(log n + k)`, where `k` runs overlap the window. Reserves `k + 1` runs for the result, and
    /// about twice as many more until it returns.
    ///
    /// ```
    /// use intervallum::proved::examples::*;
    ///
    /// fn main() -> Result<(), std::boxed::Box<dyn std::error::Error>> {
    ///     let alloc = Global;
    ///     let list: IntervalSet<i32> = [(1, 2), (5, 6)].to_interval_set(alloc)?;
    ///     let free = PagedSet::of_set(&list)?.gaps_within(&Interval::new(2, 7))?;
    ///     assert!(free == [(3, 4), (7, 7)].to_interval_set(alloc)?);
    ///     Ok(())
    /// }
    /// ```
    ///
    /// # Proved
    ///
    /// On success, the members are exactly the numbers of the window that are not in the set.
    ///
    /// ```text
    /// ensures { IfOk result (λ L. IsRunsOf L (Without (IsBetween window.now) (Covers self.now))) }
    /// ```
    ///
    /// Words: [`IsRunsOf`](crate::definitions#IsRunsOf), [`Without`](crate::definitions#Without), [`IsBetween`](crate::definitions#IsBetween), [`Covers`](crate::definitions#Covers).
    pub fn gaps_within(&self, window: &Interval<B>) -> Result<IntervalSet<B>, AllocError> {
        let met = listed(self.alloc, self.runs_within(window))?;
        IntervalSet::of(self.alloc, *window)?.difference(&met)
    }
}

/// The runs that are left, in one list.
fn listed<B: Width>(alloc: Global, mut left: Runs<'_, B>) -> Result<IntervalSet<B>, AllocError> {
    let mut list = Vec::new(alloc);
    'runs: while let Some(run) = left.next() {
        list.push(run)?;
    }
    Ok(IntervalSet::from_runs(list))
}
