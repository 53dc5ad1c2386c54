// Written by bindings/rust/extract from crates/ivl_paged/src/paged_set/best_fit.rt.
//! The shortest run that has room.

#[allow(unused_imports)]
use crate::rattle::prelude::*;
use super::PagedSet;
use crate::proved::ivl_paged::pages;
use crate::proved::intervallum::interval::Interval;
use crate::proved::intervallum::width::Width;

impl<B: Width> PagedSet<B> {
    /// Returns the lowest `count` numbers of the shortest run that has at least so many, and of the
    /// lowest of these if there are several; `None` if no run has so many. The caller must ensure
    /// that `count` is above 0. Check with `count.number() > 0`.
    ///
    /// Passes the groups of pages where no run is so long, reads how long the longest run of each other page
    /// is, and scans those pages where it is long enough: `O(n)`, and `O(n / page / group)` where few are.
    /// Does not allocate.
    ///
    /// ```
    /// use intervallum::proved::examples::*;
    ///
    /// fn main() -> Result<(), std::boxed::Box<dyn std::error::Error>> {
    ///     let alloc = Global;
    ///     let list: IntervalSet<i32> = [(1, 9), (12, 14), (20, 22)].to_interval_set(alloc)?;
    ///     let free = PagedSet::of_set(&list)?;
    ///     assert!(free.best_fit(2) == Some(Interval::new(12, 13)));
    ///     assert!(free.best_fit(4) == Some(Interval::new(1, 4)));
    ///     assert!(free.best_fit(10).is_none());
    ///     Ok(())
    /// }
    /// ```
    ///
    /// # Proved
    ///
    /// The result is the first `count` numbers of the shortest run that has so many, the lowest of those as short; or `None` if no run has so many.
    ///
    /// ```text
    /// requires { 0 < B.Output.size count }
    /// ensures { MatchOption result
    ///     ((v : ℤ) → ¬ (FitsAt (B.Output.size count) (Covers self.now) v))
    ///     (IsBestFit (B.Output.size count) (Covers self.now)) }
    /// ```
    ///
    /// Words: [`FitsAt`](crate::definitions#FitsAt), [`Covers`](crate::definitions#Covers), [`IsBestFit`](crate::definitions#IsBestFit).
    #[cfg_attr(debug_assertions, track_caller)]
    pub fn best_fit(&self, count: B::Output) -> Option<Interval<B>> {
        debug_assert!({ #[allow(unused_imports)] use crate::proved::ivl_interval::ops::*; crate::proved::ivl_interval::width::SizeNumber::number(count) > 0 }, "{}", "the condition of `best_fit` is broken: crate::proved::ivl_interval::width::SizeNumber::number(count) > 0");
        let run = pages::shortest_run(&self.pages, count)?;
        self.first_fit_from(run.lower_bound(), count)
    }
}
