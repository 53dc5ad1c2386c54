// Written by bindings/rust/extract from crates/intervallum/src/interval_set/runs_within.rt.
//! What a set has within a window: the whole runs that meet it, and how many members lie in it.

#[allow(unused_imports)]
use crate::rattle::prelude::*;
use super::IntervalSet;
use super::builder::grown;
use crate::proved::intervallum::interval::Interval;
use crate::proved::intervallum::ops::{Bounded, Cardinality, Intersection, IsEmpty};
use crate::proved::intervallum::steps::{Probes, last_up_to, runs_before};
use crate::proved::intervallum::width::{SizeNumber, Width};

impl<B: Width> IntervalSet<B> {
    /// Returns the runs that overlap the window, as a slice. The first and the last are whole, so
    /// they may reach beyond the window. An empty window overlaps none.
    ///
    /// Two binary searches, the second from where the first ended: `O(log n)`. Does not allocate.
    ///
    /// ```
    /// use intervallum::proved::examples::*;
    ///
    /// fn main() -> Result<(), std::boxed::Box<dyn std::error::Error>> {
    ///     let alloc = Global;
    ///     let a: IntervalSet<i32> = [(1, 2), (5, 6), (9, 9)].to_interval_set(alloc)?;
    ///     let met = a.runs_within(&Interval::new(2, 5));
    ///     assert!(met.len() == 2 && met[0] == Interval::new(1, 2) && met[1] == Interval::new(5, 6));
    ///     assert!(a.runs_within(&Interval::new(3, 4)).is_empty());
    ///     Ok(())
    /// }
    /// ```
    ///
    /// # Proved
    ///
    /// The result has exactly the runs that overlap the window, whole and in order.
    ///
    /// ```text
    /// ensures members { IsRunsOf result.now (OfRunsThatMeet (IsBetween window.now) (Covers self.now)) }
    /// ensures overlap { All (λ run. HasSome (Intersection (IsBetween run) (IsBetween window.now))) result.now }
    /// ensures within { IsRunListIn B.whole result.now }
    /// ```
    ///
    /// Words: [`IsRunsOf`](crate::definitions#IsRunsOf), [`OfRunsThatMeet`](crate::definitions#OfRunsThatMeet), [`IsBetween`](crate::definitions#IsBetween), [`Covers`](crate::definitions#Covers), [`HasSome`](crate::definitions#HasSome), [`Intersection`](crate::definitions#Intersection), [`IsRunListIn`](crate::definitions#IsRunListIn).
    pub fn runs_within(&self, window: &Interval<B>) -> &[Interval<B>] {
        let runs = self.as_runs();
        if window.is_empty() {
            return &runs[0..0];
        }
        let mut probes = Probes::new(self);
        let start = runs_before(&mut probes, window.lower());
        let end = last_up_to(&mut probes, window.upper(), start);
        &runs[start..end]
    }

    /// Returns the number of members that lie in the window, which may be empty. Never overflows.
    ///
    /// Two binary searches, and a scan of the `k` runs that overlap the window: `O(log n + k)`. Does
    /// not allocate.
    ///
    /// ```
    /// use intervallum::proved::examples::*;
    ///
    /// fn main() -> Result<(), std::boxed::Box<dyn std::error::Error>> {
    ///     let alloc = Global;
    ///     let a: IntervalSet<i32> = [(1, 2), (5, 6), (9, 9)].to_interval_set(alloc)?;
    ///     assert_eq!(a.size_within(&Interval::new(2, 5)), 2u32);
    ///     assert_eq!(a.size_within(&Interval::empty()), 0u32);
    ///     Ok(())
    /// }
    /// ```
    ///
    /// # Proved
    ///
    /// The result is the number of members that are in the window.
    ///
    /// ```text
    /// ensures { IsCountOf (B.Output.size result) (Intersection (Covers self.now) (IsBetween window.now)) }
    /// ```
    ///
    /// Words: [`IsCountOf`](crate::definitions#IsCountOf), [`Intersection`](crate::definitions#Intersection), [`Covers`](crate::definitions#Covers), [`IsBetween`](crate::definitions#IsBetween).
    pub fn size_within(&self, window: &Interval<B>) -> B::Output {
        size_of_part(self.runs_within(window), window)
    }
}

/// How many numbers of a window runs cover.
pub(super) fn size_of_part<B: Width>(runs: &[Interval<B>], window: &Interval<B>) -> B::Output {
    let mut size = <B::Output as SizeNumber>::zero();
    for run in runs {
        size = grown::<B>(size, run.intersection(window).size());
    }
    size
}
