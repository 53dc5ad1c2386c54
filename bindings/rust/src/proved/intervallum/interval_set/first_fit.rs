// Written by bindings/rust/extract from crates/intervallum/src/interval_set/first_fit.rt.
//! Consecutive members, and the numbers of an interval that are not members.

#[allow(unused_imports)]
use crate::rattle::prelude::*;
use super::IntervalSet;
use super::shrinks::cut;
use crate::proved::intervallum::interval::Interval;
use crate::proved::intervallum::ops::{Bounded, Cardinality, Difference, Range};
use crate::proved::intervallum::steps::{Place, Probes, find};
use crate::proved::intervallum::width::{SizeNumber, Width};
use crate::rattle::std::alloc::AllocError;

impl<B: Width> IntervalSet<B> {
    /// Returns the lowest interval of exactly `count` consecutive members, or `None` if there is
    /// none. The caller must ensure that `count` is above 0. Check with `count.number() > 0`.
    ///
    /// Scans the runs up to the first that is long enough: `O(n)`. Does not allocate.
    ///
    /// ```
    /// use intervallum::proved::examples::*;
    ///
    /// fn main() -> Result<(), std::boxed::Box<dyn std::error::Error>> {
    ///     let alloc = Global;
    ///     let a: IntervalSet<i32> = [(1, 2), (5, 9)].to_interval_set(alloc)?;
    ///     assert!(a.first_fit(3) == Some(Interval::new(5, 7)));
    ///     assert!(a.first_fit(6).is_none());
    ///     Ok(())
    /// }
    /// ```
    ///
    /// # Proved
    ///
    /// The result is the lowest `count` consecutive members, or `None` if there are none.
    ///
    /// ```text
    /// requires { 0 < B.Output.size count }
    /// ensures { MatchOption result
    ///     ((v : ℤ) → ¬ (FitsAt (B.Output.size count) (Covers self.now) v))
    ///     (IsFirstFit (B.Output.size count) (Covers self.now)) }
    /// ```
    ///
    /// Words: [`FitsAt`](crate::definitions#FitsAt), [`Covers`](crate::definitions#Covers), [`IsFirstFit`](crate::definitions#IsFirstFit).
    #[cfg_attr(debug_assertions, track_caller)]
    pub fn first_fit(&self, count: B::Output) -> Option<Interval<B>> {
        debug_assert!({ #[allow(unused_imports)] use crate::proved::ivl_interval::ops::*; count.number() > 0 }, "{}", "the condition of `first_fit` is broken: count.number() > 0");
        fit_in(self.as_runs(), count)
    }

    /// Returns the lowest interval of exactly `count` consecutive members that are all at least
    /// `v`, or `None` if there is none. `v` may be any value of its type. The caller must ensure
    /// that `count` is above 0. Check with `count.number() > 0`.
    ///
    /// Finds `v` by binary search and scans the `k` runs from there up to the first that is long
    /// enough: `O(log n + k)`. Does not allocate.
    ///
    /// ```
    /// use intervallum::proved::examples::*;
    ///
    /// fn main() -> Result<(), std::boxed::Box<dyn std::error::Error>> {
    ///     let alloc = Global;
    ///     let a: IntervalSet<i32> = [(1, 2), (5, 9)].to_interval_set(alloc)?;
    ///     assert!(a.first_fit_from(6, 3) == Some(Interval::new(6, 8)));
    ///     assert!(a.first_fit_from(8, 3).is_none());
    ///     Ok(())
    /// }
    /// ```
    ///
    /// # Proved
    ///
    /// The result is the lowest `count` consecutive members that are at least `v`, or `None` if there are none.
    ///
    /// ```text
    /// requires { 0 < B.Output.size count }
    /// ensures { MatchOption result
    ///     ((w : ℤ) → ¬ (FitsAt (B.Output.size count) (AtLeast (B.value v) (Covers self.now)) w))
    ///     (IsFirstFit (B.Output.size count) (AtLeast (B.value v) (Covers self.now))) }
    /// ```
    ///
    /// Words: [`FitsAt`](crate::definitions#FitsAt), [`AtLeast`](crate::definitions#AtLeast), [`Covers`](crate::definitions#Covers), [`IsFirstFit`](crate::definitions#IsFirstFit).
    #[cfg_attr(debug_assertions, track_caller)]
    pub fn first_fit_from(&self, v: B, count: B::Output) -> Option<Interval<B>> {
        debug_assert!({ #[allow(unused_imports)] use crate::proved::ivl_interval::ops::*; count.number() > 0 }, "{}", "the condition of `first_fit_from` is broken: count.number() > 0");
        let runs = self.as_runs();
        let mut probes = Probes::new(self);
        match find(&mut probes, v) {
            Place::Gap(i) => fit_in(&runs[i..], count),
            Place::In(i) => fit_from_run(runs, i, v, count),
        }
    }

    /// Returns the numbers of the interval that are not members. Fails only if allocation fails.
    ///
    /// `O(log n + k)`, where `k` runs overlap the interval. Reserves `k + 1` runs for the result,
    /// and at most about twice as many more until it returns.
    ///
    /// ```
    /// use intervallum::proved::examples::*;
    ///
    /// fn main() -> Result<(), std::boxed::Box<dyn std::error::Error>> {
    ///     let alloc = Global;
    ///     let a: IntervalSet<i32> = [(1, 2), (5, 6)].to_interval_set(alloc)?;
    ///     let free = a.gaps_within(&Interval::new(2, 7))?;
    ///     assert!(free == [(3, 4), (7, 7)].to_interval_set(alloc)?);
    ///     Ok(())
    /// }
    /// ```
    ///
    /// # Proved
    ///
    /// On success, the members are exactly the numbers of the window that are not in the set.
    ///
    /// ```text
    /// ensures { IfOk result (λ L. IsRunsOf L (Without (IsBetween window.now) (Covers self.now))) }
    /// ```
    ///
    /// Words: [`IsRunsOf`](crate::definitions#IsRunsOf), [`Without`](crate::definitions#Without), [`IsBetween`](crate::definitions#IsBetween), [`Covers`](crate::definitions#Covers).
    pub fn gaps_within(&self, window: &Interval<B>) -> Result<IntervalSet<B>, AllocError> {
        let members = cut(self, window)?;
        let all = IntervalSet::of(self.allocator(), *window)?;
        all.difference(&members)
    }
}

/// The lowest `count` consecutive numbers that are at least `v` and lie in one of the runs. Run
/// number `i` holds `v`.
fn fit_from_run<B: Width>(
    runs: &[Interval<B>],
    i: usize,
    v: B,
    count: B::Output,
) -> Option<Interval<B>> {
    let run = runs[i];
    let part = Interval::new(v, run.upper());
    if part.size() >= count {
        Some(lowest_of(&part, count))
    } else {
        fit_in(&runs[i + 1..], count)
    }
}

/// The lowest `count` consecutive numbers that lie in one of the runs.
fn fit_in<B: Width>(runs: &[Interval<B>], count: B::Output) -> Option<Interval<B>> {
    for run in runs {
        if run.size() >= count {
            return Some(lowest_of(run, count));
        }
    }
    None
}

/// The lowest `count` numbers of a run that has at least so many.
pub(super) fn lowest_of<B: Width>(run: &Interval<B>, count: B::Output) -> Interval<B> {
    run.in_whole();
    let start = run.lower_bound();
    let last = start.number() + (count.number() - 1) as i128;
    Interval::new(start, B::from_number(last).unwrap())
}
