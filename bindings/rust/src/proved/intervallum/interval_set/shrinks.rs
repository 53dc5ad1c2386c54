// Written by bindings/rust/extract from crates/intervallum/src/interval_set/shrinks.rt.
//! Sets cut at a value, from either side, with or without the value.

#[allow(unused_imports)]
use crate::rattle::prelude::*;
use super::IntervalSet;
use super::builder::grown;
use super::run_lists::size_of_runs;
use crate::proved::intervallum::interval::Interval;
use crate::proved::intervallum::ops::{
    Bounded, IsEmpty, ShrinkLeft, ShrinkRight, StrictShrinkLeft, StrictShrinkRight, Whole,
};
use crate::proved::intervallum::steps::{Probes, runs_before, runs_up_to};
use crate::proved::intervallum::width::Width;
use crate::rattle::std::alloc::{AllocError, Global};

/// Proved, with these words of the trait:
///
/// ```text
/// answers = { λ r S. IfOk r (λ L. IsRunsOf L S) }
/// ```
///
/// Words: [`IsRunsOf`](crate::definitions#IsRunsOf).
impl<B: Width> ShrinkLeft for IntervalSet<B> {
    type Output = Result<IntervalSet<B>, AllocError>;

    /// Returns the members that are at least `lower`, which may be any value of its type. Binary
    /// search: `O(log n + k)` where `k` runs remain. Reserves `k` runs once. Fails only if
    /// allocation fails.
    ///
    /// ```
    /// use intervallum::proved::examples::*;
    ///
    /// fn main() -> Result<(), std::boxed::Box<dyn std::error::Error>> {
    ///     let alloc = Global;
    ///     let a = IntervalSet::new(alloc, 1, 5)?;
    ///     assert!(a.shrink_left(3)? == IntervalSet::new(alloc, 3, 5)?);
    ///     Ok(())
    /// }
    /// ```
    ///
    /// # Proved
    ///
    /// On success, the members are exactly those of the set that are at least `lower`, in at most as many runs as the set has.
    ///
    /// ```text
    /// ensures members { IfOk result (λ L. IsRunsOf L (AtLeast (B.value lower) (Covers self.now))) }
    /// ensures runs_at_most { IfOk result (λ L. length L ≤ length self.now) }
    /// ```
    ///
    /// Words: [`IsRunsOf`](crate::definitions#IsRunsOf), [`AtLeast`](crate::definitions#AtLeast), [`Covers`](crate::definitions#Covers).
    fn shrink_left(&self, lower: B) -> Result<IntervalSet<B>, AllocError> {
        cut(self, &Interval::whole().shrink_left(lower))
    }
}

/// Proved, with these words of the trait:
///
/// ```text
/// answers = { λ r S. IfOk r (λ L. IsRunsOf L S) }
/// ```
///
/// Words: [`IsRunsOf`](crate::definitions#IsRunsOf).
impl<B: Width> ShrinkRight for IntervalSet<B> {
    type Output = Result<IntervalSet<B>, AllocError>;

    /// Returns the members that are at most `upper`, which may be any value of its type. Binary
    /// search: `O(log n + k)` where `k` runs remain. Reserves `k` runs once. Fails only if
    /// allocation fails.
    ///
    /// ```
    /// use intervallum::proved::examples::*;
    ///
    /// fn main() -> Result<(), std::boxed::Box<dyn std::error::Error>> {
    ///     let alloc = Global;
    ///     let a = IntervalSet::new(alloc, 1, 5)?;
    ///     assert!(a.shrink_right(3)? == IntervalSet::new(alloc, 1, 3)?);
    ///     Ok(())
    /// }
    /// ```
    ///
    /// # Proved
    ///
    /// On success, the members are exactly those of the set that are at most `upper`, in at most as many runs as the set has.
    ///
    /// ```text
    /// ensures members { IfOk result (λ L. IsRunsOf L (AtMost (B.value upper) (Covers self.now))) }
    /// ensures runs_at_most { IfOk result (λ L. length L ≤ length self.now) }
    /// ```
    ///
    /// Words: [`IsRunsOf`](crate::definitions#IsRunsOf), [`AtMost`](crate::definitions#AtMost), [`Covers`](crate::definitions#Covers).
    fn shrink_right(&self, upper: B) -> Result<IntervalSet<B>, AllocError> {
        cut(self, &Interval::whole().shrink_right(upper))
    }
}

/// Proved, with these words of the trait:
///
/// ```text
/// answers = { λ r S. IfOk r (λ L. IsRunsOf L S) }
/// ```
///
/// Words: [`IsRunsOf`](crate::definitions#IsRunsOf).
impl<B: Width> StrictShrinkLeft for IntervalSet<B> {
    type Output = Result<IntervalSet<B>, AllocError>;

    /// Returns the members above `lower`, which may be any value of its type. Binary search:
    /// `O(log n + k)` where `k` runs remain. Reserves `k` runs once. Fails only if allocation
    /// fails.
    ///
    /// ```
    /// use intervallum::proved::examples::*;
    ///
    /// fn main() -> Result<(), std::boxed::Box<dyn std::error::Error>> {
    ///     let alloc = Global;
    ///     let a = IntervalSet::new(alloc, 1, 5)?;
    ///     assert!(a.strict_shrink_left(3)? == IntervalSet::new(alloc, 4, 5)?);
    ///     Ok(())
    /// }
    /// ```
    ///
    /// # Proved
    ///
    /// On success, the members are exactly those of the set that are above `lower`, in at most as many runs as the set has.
    ///
    /// ```text
    /// ensures members { IfOk result (λ L. IsRunsOf L (Above (B.value lower) (Covers self.now))) }
    /// ensures runs_at_most { IfOk result (λ L. length L ≤ length self.now) }
    /// ```
    ///
    /// Words: [`IsRunsOf`](crate::definitions#IsRunsOf), [`Above`](crate::definitions#Above), [`Covers`](crate::definitions#Covers).
    fn strict_shrink_left(&self, lower: B) -> Result<IntervalSet<B>, AllocError> {
        cut(self, &Interval::whole().strict_shrink_left(lower))
    }
}

/// Proved, with these words of the trait:
///
/// ```text
/// answers = { λ r S. IfOk r (λ L. IsRunsOf L S) }
/// ```
///
/// Words: [`IsRunsOf`](crate::definitions#IsRunsOf).
impl<B: Width> StrictShrinkRight for IntervalSet<B> {
    type Output = Result<IntervalSet<B>, AllocError>;

    /// Returns the members below `upper`, which may be any value of its type. Binary search:
    /// `O(log n + k)` where `k` runs remain. Reserves `k` runs once. Fails only if allocation
    /// fails.
    ///
    /// ```
    /// use intervallum::proved::examples::*;
    ///
    /// fn main() -> Result<(), std::boxed::Box<dyn std::error::Error>> {
    ///     let alloc = Global;
    ///     let a = IntervalSet::new(alloc, 1, 5)?;
    ///     assert!(a.strict_shrink_right(3)? == IntervalSet::new(alloc, 1, 2)?);
    ///     Ok(())
    /// }
    /// ```
    ///
    /// # Proved
    ///
    /// On success, the members are exactly those of the set that are below `upper`, in at most as many runs as the set has.
    ///
    /// ```text
    /// ensures members { IfOk result (λ L. IsRunsOf L (Below (B.value upper) (Covers self.now))) }
    /// ensures runs_at_most { IfOk result (λ L. length L ≤ length self.now) }
    /// ```
    ///
    /// Words: [`IsRunsOf`](crate::definitions#IsRunsOf), [`Below`](crate::definitions#Below), [`Covers`](crate::definitions#Covers).
    fn strict_shrink_right(&self, upper: B) -> Result<IntervalSet<B>, AllocError> {
        cut(self, &Interval::whole().strict_shrink_right(upper))
    }
}

/// The members of a set that lie in an interval.
pub(super) fn cut<B: Width>(
    set: &IntervalSet<B>,
    window: &Interval<B>,
) -> Result<IntervalSet<B>, AllocError> {
    let runs = set.as_runs();
    if window.is_empty() {
        return IntervalSet::with_room(set.allocator(), 0);
    }
    let mut probes = Probes::new(set);
    let start = runs_before(&mut probes, window.lower());
    let end = runs_up_to(&mut probes, window.upper());
    let kept = &runs[start..end];
    cut_runs(set.allocator(), kept, window)
}

/// The numbers of runs that lie in an interval: all of each run but the first and the last.
fn cut_runs<B: Width>(
    alloc: Global,
    runs: &[Interval<B>],
    window: &Interval<B>,
) -> Result<IntervalSet<B>, AllocError> {
    let mut kept = IntervalSet::with_room(alloc, runs.len())?;
    kept.push_cut(runs, window)?;
    Ok(kept)
}

impl<B: Width> IntervalSet<B> {
    /// Adds the part of runs that lies in an interval, which is above the members and not adjacent
    /// to them. Copies the runs and then cuts the first and the last.
    pub(crate) fn push_cut(
        &mut self,
        runs: &[Interval<B>],
        window: &Interval<B>,
    ) -> Result<(), AllocError> {
        let count = self.intervals.len();
        self.intervals.extend_from_slice(runs)?;
        cut_ends(&mut self.intervals, count, window);
        let more = size_of_runs(&self.intervals[count..]);
        self.size = grown::<B>(self.size, more);
        Ok(())
    }
}

/// Cuts the runs from a place on to what lies in an interval: the first of them from below, and the
/// last one from above.
fn cut_ends<B: Width>(runs: &mut Vec<Interval<B>>, from: usize, window: &Interval<B>) {
    let count = runs.len();
    if count == from {
        return;
    }
    runs[from] = runs[from].shrink_left(window.lower());
    runs[count - 1] = runs[count - 1].shrink_right(window.upper());
}
