// Written by bindings/rust/extract from crates/ivl_paged/src/paged_set/interval_operands.rt.
//! A set beside a single interval.

#[allow(unused_imports)]
use crate::rattle::prelude::*;
use super::PagedSet;
use crate::proved::intervallum::interval::Interval;
use crate::proved::intervallum::ops::{Bounded, Disjoint, IsEmpty, Overlap};
use crate::proved::intervallum::width::Width;

impl<B: Width> PagedSet<B> {
    /// Returns true exactly when each member of the interval is a member of the set, so always for
    /// an empty interval. Binary search: `O(log n)`. Does not allocate.
    ///
    /// ```
    /// use intervallum::proved::examples::*;
    ///
    /// fn main() -> Result<(), std::boxed::Box<dyn std::error::Error>> {
    ///     let alloc = Global;
    ///     let list: IntervalSet<i32> = [(1, 5), (8, 9)].to_interval_set(alloc)?;
    ///     let a = PagedSet::of_set(&list)?;
    ///     assert!(a.includes(&Interval::new(2, 5)) && !a.includes(&Interval::new(5, 8)));
    ///     Ok(())
    /// }
    /// ```
    ///
    /// # Proved
    ///
    /// True exactly when each number of the interval is a member.
    ///
    /// ```text
    /// ensures { IsTrue result ↔ IsSubset (IsBetween interval.now) (Covers self.now) }
    /// ```
    ///
    /// Words: [`IsSubset`](crate::definitions#IsSubset), [`IsBetween`](crate::definitions#IsBetween), [`Covers`](crate::definitions#Covers).
    pub fn includes(&self, interval: &Interval<B>) -> bool {
        if interval.is_empty() {
            return true;
        }
        match self.run_at(interval.lower()) {
            Some(run) => interval.upper() <= run.upper(),
            None => false,
        }
    }
}

/// Proved, with these words of the trait:
///
/// ```text
/// members = { Covers }
/// other_members = { IsBetween }
/// ```
///
/// Words: [`Covers`](crate::definitions#Covers), [`IsBetween`](crate::definitions#IsBetween).
impl<B: Width> Overlap<Interval<B>> for PagedSet<B> {
    /// Returns true exactly when some member of the interval is a member of the set. Binary search:
    /// `O(log n)`. Does not allocate.
    ///
    /// ```
    /// use intervallum::proved::examples::*;
    ///
    /// fn main() -> Result<(), std::boxed::Box<dyn std::error::Error>> {
    ///     let alloc = Global;
    ///     let list: IntervalSet<i32> = [(1, 2), (5, 6)].to_interval_set(alloc)?;
    ///     let a = PagedSet::of_set(&list)?;
    ///     assert!(a.overlap(&Interval::new(3, 5)) && !a.overlap(&Interval::new(3, 4)));
    ///     Ok(())
    /// }
    /// ```
    ///
    /// # Proved
    ///
    /// What [`Overlap::overlap`] says, by the words of the type.
    fn overlap(&self, other: &Interval<B>) -> bool {
        if other.is_empty() {
            return false;
        }
        match self.next_from(other.lower()) {
            Some(least) => least <= other.upper(),
            None => false,
        }
    }
}

/// Proved, with these words of the trait:
///
/// ```text
/// members = { Covers }
/// other_members = { IsBetween }
/// ```
///
/// Words: [`Covers`](crate::definitions#Covers), [`IsBetween`](crate::definitions#IsBetween).
impl<B: Width> Disjoint<Interval<B>> for PagedSet<B> {
    /// Returns true exactly when no member of the interval is a member of the set, so always for an
    /// empty interval. Binary search: `O(log n)`. Does not allocate.
    ///
    /// ```
    /// use intervallum::proved::examples::*;
    ///
    /// fn main() -> Result<(), std::boxed::Box<dyn std::error::Error>> {
    ///     let alloc = Global;
    ///     let list: IntervalSet<i32> = [(1, 2), (5, 6)].to_interval_set(alloc)?;
    ///     let a = PagedSet::of_set(&list)?;
    ///     assert!(a.is_disjoint(&Interval::new(3, 4)) && !a.is_disjoint(&Interval::new(3, 5)));
    ///     Ok(())
    /// }
    /// ```
    ///
    /// # Proved
    ///
    /// What [`Disjoint::is_disjoint`] says, by the words of the type.
    fn is_disjoint(&self, other: &Interval<B>) -> bool {
        !self.overlap(other)
    }
}
