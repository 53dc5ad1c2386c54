// Written by bindings/rust/extract from crates/intervallum/src/interval_set/best_fit.rt.
//! The calls of an allocator: room that is found and removed in one call, and the shortest run that has it.

#[allow(unused_imports)]
use crate::rattle::prelude::*;
use super::IntervalSet;
use super::first_fit::lowest_of;
use crate::proved::intervallum::interval::Interval;
use crate::proved::intervallum::ops::Cardinality;
use crate::proved::intervallum::width::{SizeNumber, Width};

impl<B: Width> IntervalSet<B> {
    /// Removes and returns the lowest interval of exactly `count` consecutive members, or returns
    /// `None` if there is none; the set is then unchanged. The caller must ensure that `count` is
    /// above 0. Check with `count.number() > 0`.
    ///
    /// The interval is the start of a run, so no run is split and nothing can fail. Scans the runs
    /// up to the first that is long enough: `O(n)`. If the run has exactly `count` members, the runs
    /// above it then move. Does not allocate.
    ///
    /// ```
    /// use intervallum::proved::examples::*;
    ///
    /// fn main() -> Result<(), std::boxed::Box<dyn std::error::Error>> {
    ///     let alloc = Global;
    ///     let mut free: IntervalSet<i32> = [(1, 2), (5, 9)].to_interval_set(alloc)?;
    ///     assert!(free.take_first_fit(3) == Some(Interval::new(5, 7)));
    ///     assert!(free == [(1, 2), (8, 9)].to_interval_set(alloc)?);
    ///     assert!(free.take_first_fit(3).is_none());
    ///     Ok(())
    /// }
    /// ```
    ///
    /// # Proved
    ///
    /// The result is the lowest `count` consecutive members, and the set keeps exactly the others; or `None` if there are none, and the set is unchanged.
    ///
    /// ```text
    /// requires { 0 < B.Output.size count }
    /// ensures fit { MatchOption result
    ///     ((v : ℤ) → ¬ (FitsAt (B.Output.size count) (Covers self.old) v))
    ///     (IsFirstFit (B.Output.size count) (Covers self.old)) }
    /// ensures members { MatchOption result
    ///     (self.new ≡ self.old)
    ///     (λ run. IsRunsOf self.new (Without (Covers self.old) (IsBetween run))) }
    /// ```
    ///
    /// Words: [`FitsAt`](crate::definitions#FitsAt), [`Covers`](crate::definitions#Covers), [`IsFirstFit`](crate::definitions#IsFirstFit), [`IsRunsOf`](crate::definitions#IsRunsOf), [`Without`](crate::definitions#Without), [`IsBetween`](crate::definitions#IsBetween).
    #[cfg_attr(debug_assertions, track_caller)]
    pub fn take_first_fit(&mut self, count: B::Output) -> Option<Interval<B>> {
        debug_assert!({ #[allow(unused_imports)] use crate::proved::ivl_interval::ops::*; count.number() > 0 }, "{}", "the condition of `take_first_fit` is broken: count.number() > 0");
        let run = self.first_fit(count)?;
        self.remove_interval(run).unwrap();
        Some(run)
    }

    /// Returns the lowest `count` numbers of the shortest run that has at least so many, and of the
    /// lowest of these if there are several; `None` if no run has so many. The caller must ensure
    /// that `count` is above 0. Check with `count.number() > 0`.
    ///
    /// Scans all runs: `O(n)`. Does not allocate.
    ///
    /// ```
    /// use intervallum::proved::examples::*;
    ///
    /// fn main() -> Result<(), std::boxed::Box<dyn std::error::Error>> {
    ///     let alloc = Global;
    ///     let free: IntervalSet<i32> = [(1, 9), (12, 14), (20, 22)].to_interval_set(alloc)?;
    ///     assert!(free.best_fit(2) == Some(Interval::new(12, 13)));
    ///     assert!(free.best_fit(4) == Some(Interval::new(1, 4)));
    ///     assert!(free.best_fit(10).is_none());
    ///     Ok(())
    /// }
    /// ```
    ///
    /// # Proved
    ///
    /// The result is the first `count` numbers of the shortest run that has so many, the lowest of those as short; or `None` if no run has so many.
    ///
    /// ```text
    /// requires { 0 < B.Output.size count }
    /// ensures { MatchOption result
    ///     ((v : ℤ) → ¬ (FitsAt (B.Output.size count) (Covers self.now) v))
    ///     (IsBestFit (B.Output.size count) (Covers self.now)) }
    /// ```
    ///
    /// Words: [`FitsAt`](crate::definitions#FitsAt), [`Covers`](crate::definitions#Covers), [`IsBestFit`](crate::definitions#IsBestFit).
    #[cfg_attr(debug_assertions, track_caller)]
    pub fn best_fit(&self, count: B::Output) -> Option<Interval<B>> {
        debug_assert!({ #[allow(unused_imports)] use crate::proved::ivl_interval::ops::*; count.number() > 0 }, "{}", "the condition of `best_fit` is broken: count.number() > 0");
        let runs = self.as_runs();
        let mut best: Option<Interval<B>> = None;
        for run in runs {
            if fits_better(run, count, best) {
                best = Some(*run);
            }
        }
        let run = best?;
        Some(lowest_of(&run, count))
    }
}

/// Whether a run has at least `count` numbers, and fewer than the best so far, if there is one.
fn fits_better<B: Width>(run: &Interval<B>, count: B::Output, best: Option<Interval<B>>) -> bool {
    let size = run.size();
    let is_shorter = match best {
        Some(shortest) => size < shortest.size(),
        None => true,
    };
    (size >= count) & is_shorter
}
