// Written by bindings/rust/extract from crates/intervallum/src/interval_set/interval_operands.rt.
//! Operations on a set and a single interval.

#[allow(unused_imports)]
use crate::rattle::prelude::*;
use super::IntervalSet;
use super::shrinks::cut;
use crate::proved::intervallum::interval::Interval;
use crate::proved::intervallum::ops::{
    Bounded, Difference, Disjoint, Intersection, IsEmpty, Overlap, SymmetricDifference, Union,
};
use crate::proved::intervallum::width::Width;
use crate::rattle::std::alloc::{AllocError, Global};

impl<B: Width> IntervalSet<B> {
    /// Returns the set of the members of an interval, which may be empty. `O(1)`. Allocates one
    /// run, or nothing for an empty interval. Fails only if allocation fails.
    ///
    /// ```
    /// use intervallum::proved::examples::*;
    ///
    /// fn main() -> Result<(), std::boxed::Box<dyn std::error::Error>> {
    ///     let alloc = Global;
    ///     let a = IntervalSet::of(alloc, Interval::new(1, 2))?;
    ///     assert!(a == IntervalSet::new(alloc, 1, 2)?);
    ///     assert!(IntervalSet::of(alloc, Interval::<i32>::empty())?.is_empty());
    ///     Ok(())
    /// }
    /// ```
    ///
    /// # Proved
    ///
    /// On success, the members are exactly the numbers of the interval, in at most one run.
    ///
    /// ```text
    /// ensures members { IfOk result (λ L. IsRunsOf L (IsBetween interval)) }
    /// ensures runs_at_most { IfOk result (λ L. length L ≤ 1) }
    /// ```
    ///
    /// Words: [`IsRunsOf`](crate::definitions#IsRunsOf), [`IsBetween`](crate::definitions#IsBetween).
    pub fn of(alloc: Global, interval: Interval<B>) -> Result<Self, AllocError> {
        if interval.is_empty() {
            return Ok(Self::empty(alloc));
        }
        Self::new(alloc, interval.lower(), interval.upper())
    }

    /// Returns true exactly when each member of the interval is a member of the set, so always for
    /// an empty interval. Binary search: `O(log n)`. Does not allocate.
    ///
    /// ```
    /// use intervallum::proved::examples::*;
    ///
    /// fn main() -> Result<(), std::boxed::Box<dyn std::error::Error>> {
    ///     let alloc = Global;
    ///     let a: IntervalSet<i32> = [(1, 5), (8, 9)].to_interval_set(alloc)?;
    ///     assert!(a.includes(&Interval::new(2, 5)) && !a.includes(&Interval::new(5, 8)));
    ///     Ok(())
    /// }
    /// ```
    ///
    /// # Proved
    ///
    /// True exactly when each number of the interval is a member.
    ///
    /// ```text
    /// ensures { IsTrue result ↔ IsSubset (IsBetween interval.now) (Covers self.now) }
    /// ```
    ///
    /// Words: [`IsSubset`](crate::definitions#IsSubset), [`IsBetween`](crate::definitions#IsBetween), [`Covers`](crate::definitions#Covers).
    pub fn includes(&self, interval: &Interval<B>) -> bool {
        if interval.is_empty() {
            return true;
        }
        match self.run_at(interval.lower()) {
            Some(run) => interval.upper() <= run.upper(),
            None => false,
        }
    }
}

/// Proved, with these words of the trait:
///
/// ```text
/// members = { Covers }
/// other_members = { IsBetween }
/// ```
///
/// Words: [`Covers`](crate::definitions#Covers), [`IsBetween`](crate::definitions#IsBetween).
impl<B: Width> Overlap<Interval<B>> for IntervalSet<B> {
    /// Returns true exactly when some member of the interval is a member of the set. Binary search:
    /// `O(log n)`. Does not allocate.
    ///
    /// ```
    /// use intervallum::proved::examples::*;
    ///
    /// fn main() -> Result<(), std::boxed::Box<dyn std::error::Error>> {
    ///     let alloc = Global;
    ///     let a: IntervalSet<i32> = [(1, 2), (5, 6)].to_interval_set(alloc)?;
    ///     assert!(a.overlap(&Interval::new(3, 5)) && !a.overlap(&Interval::new(3, 4)));
    ///     Ok(())
    /// }
    /// ```
    ///
    /// # Proved
    ///
    /// What [`Overlap::overlap`] says, by the words of the type.
    fn overlap(&self, other: &Interval<B>) -> bool {
        if other.is_empty() {
            return false;
        }
        match self.next_from(other.lower()) {
            Some(least) => least <= other.upper(),
            None => false,
        }
    }
}

/// Proved, with these words of the trait:
///
/// ```text
/// members = { Covers }
/// other_members = { IsBetween }
/// ```
///
/// Words: [`Covers`](crate::definitions#Covers), [`IsBetween`](crate::definitions#IsBetween).
impl<B: Width> Disjoint<Interval<B>> for IntervalSet<B> {
    /// Returns true exactly when no member of the interval is a member of the set, so always for an
    /// empty interval. Binary search: `O(log n)`. Does not allocate.
    ///
    /// ```
    /// use intervallum::proved::examples::*;
    ///
    /// fn main() -> Result<(), std::boxed::Box<dyn std::error::Error>> {
    ///     let alloc = Global;
    ///     let a: IntervalSet<i32> = [(1, 2), (5, 6)].to_interval_set(alloc)?;
    ///     assert!(a.is_disjoint(&Interval::new(3, 4)) && !a.is_disjoint(&Interval::new(3, 5)));
    ///     Ok(())
    /// }
    /// ```
    ///
    /// # Proved
    ///
    /// What [`Disjoint::is_disjoint`] says, by the words of the type.
    fn is_disjoint(&self, other: &Interval<B>) -> bool {
        !self.overlap(other)
    }
}

/// Proved, with these words of the trait:
///
/// ```text
/// members = { Covers }
/// other_members = { IsBetween }
/// can_unite = { λ _ _. ⊤ }
/// answers = { λ r S. IfOk r (λ L. IsRunsOf L S) }
/// ```
///
/// Words: [`Covers`](crate::definitions#Covers), [`IsBetween`](crate::definitions#IsBetween), [`IsRunsOf`](crate::definitions#IsRunsOf).
impl<B: Width> Union<Interval<B>> for IntervalSet<B> {
    type Output = Result<IntervalSet<B>, AllocError>;

    /// Returns the members of the set and of the interval, which may be empty. `O(n)`: one copy and
    /// a binary search. Reserves `n + 1` runs once. Fails only if allocation fails.
    ///
    /// ```
    /// use intervallum::proved::examples::*;
    ///
    /// fn main() -> Result<(), std::boxed::Box<dyn std::error::Error>> {
    ///     let alloc = Global;
    ///     let a = IntervalSet::new(alloc, 1, 5)?;
    ///     assert!(a.union(&Interval::new(6, 9))? == IntervalSet::new(alloc, 1, 9)?);
    ///     Ok(())
    /// }
    /// ```
    ///
    /// # Proved
    ///
    /// On success, the members are exactly those of the set and the numbers of the interval, in at most one run more than the set has.
    ///
    /// ```text
    /// ensures members { IfOk result (λ L. IsRunsOf L (Union (Covers self.now) (IsBetween other.now))) }
    /// ensures runs_at_most { IfOk result (λ L. length L ≤ length self.now + 1) }
    /// ```
    ///
    /// Words: [`IsRunsOf`](crate::definitions#IsRunsOf), [`Union`](crate::definitions#Union), [`Covers`](crate::definitions#Covers), [`IsBetween`](crate::definitions#IsBetween).
    fn union(&self, other: &Interval<B>) -> Result<IntervalSet<B>, AllocError> {
        let mut set = self.copy_with_room()?;
        set.insert_interval(*other)?;
        Ok(set.fitted())
    }
}

/// Proved, with these words of the trait:
///
/// ```text
/// members = { Covers }
/// other_members = { IsBetween }
/// answers = { λ r S. IfOk r (λ L. IsRunsOf L S) }
/// ```
///
/// Words: [`Covers`](crate::definitions#Covers), [`IsBetween`](crate::definitions#IsBetween), [`IsRunsOf`](crate::definitions#IsRunsOf).
impl<B: Width> Intersection<Interval<B>> for IntervalSet<B> {
    type Output = Result<IntervalSet<B>, AllocError>;

    /// Returns the members that lie in the interval. Binary search: `O(log n + k)`, where `k` runs
    /// overlap the interval. Reserves `k` runs once. Fails only if allocation fails.
    ///
    /// ```
    /// use intervallum::proved::examples::*;
    ///
    /// fn main() -> Result<(), std::boxed::Box<dyn std::error::Error>> {
    ///     let alloc = Global;
    ///     let a: IntervalSet<i32> = [(1, 5), (8, 9)].to_interval_set(alloc)?;
    ///     assert!(a.intersection(&Interval::new(4, 7))? == IntervalSet::new(alloc, 4, 5)?);
    ///     Ok(())
    /// }
    /// ```
    ///
    /// # Proved
    ///
    /// On success, the members are exactly those of the set that are in the interval, in at most as many runs as the set has.
    ///
    /// ```text
    /// ensures members { IfOk result (λ L. IsRunsOf L (Intersection (Covers self.now) (IsBetween other.now))) }
    /// ensures runs_at_most { IfOk result (λ L. length L ≤ length self.now) }
    /// ```
    ///
    /// Words: [`IsRunsOf`](crate::definitions#IsRunsOf), [`Intersection`](crate::definitions#Intersection), [`Covers`](crate::definitions#Covers), [`IsBetween`](crate::definitions#IsBetween).
    fn intersection(&self, other: &Interval<B>) -> Result<IntervalSet<B>, AllocError> {
        cut(self, other)
    }
}

/// Proved, with these words of the trait:
///
/// ```text
/// members = { Covers }
/// other_members = { IsBetween }
/// answers = { λ r S. IfOk r (λ L. IsRunsOf L S) }
/// ```
///
/// Words: [`Covers`](crate::definitions#Covers), [`IsBetween`](crate::definitions#IsBetween), [`IsRunsOf`](crate::definitions#IsRunsOf).
impl<B: Width> Difference<Interval<B>> for IntervalSet<B> {
    type Output = Result<IntervalSet<B>, AllocError>;

    /// Returns the members that do not lie in the interval. `O(n)`: one copy and a binary search.
    /// Reserves `n + 1` runs once. Fails only if allocation fails.
    ///
    /// ```
    /// use intervallum::proved::examples::*;
    ///
    /// fn main() -> Result<(), std::boxed::Box<dyn std::error::Error>> {
    ///     let alloc = Global;
    ///     let a = IntervalSet::new(alloc, 1, 9)?;
    ///     let rest = a.difference(&Interval::new(4, 7))?;
    ///     assert!(rest == [(1, 3), (8, 9)].to_interval_set(alloc)?);
    ///     Ok(())
    /// }
    /// ```
    ///
    /// # Proved
    ///
    /// On success, the members are exactly those of the set that are not in the interval, in at most one run more than the set has.
    ///
    /// ```text
    /// ensures members { IfOk result (λ L. IsRunsOf L (Without (Covers self.now) (IsBetween other.now))) }
    /// ensures runs_at_most { IfOk result (λ L. length L ≤ length self.now + 1) }
    /// ```
    ///
    /// Words: [`IsRunsOf`](crate::definitions#IsRunsOf), [`Without`](crate::definitions#Without), [`Covers`](crate::definitions#Covers), [`IsBetween`](crate::definitions#IsBetween).
    fn difference(&self, other: &Interval<B>) -> Result<IntervalSet<B>, AllocError> {
        let mut set = self.copy_with_room()?;
        set.remove_interval(*other)?;
        Ok(set.fitted())
    }
}

/// Proved, with these words of the trait:
///
/// ```text
/// members = { Covers }
/// other_members = { IsBetween }
/// can_unite = { λ _ _. ⊤ }
/// answers = { λ r S. IfOk r (λ L. IsRunsOf L S) }
/// ```
///
/// Words: [`Covers`](crate::definitions#Covers), [`IsBetween`](crate::definitions#IsBetween), [`IsRunsOf`](crate::definitions#IsRunsOf).
impl<B: Width> SymmetricDifference<Interval<B>> for IntervalSet<B> {
    type Output = Result<IntervalSet<B>, AllocError>;

    /// Returns the numbers that are in exactly one of the set and the interval, which may be empty.
    /// `O(n)`. Reserves `n + 1` runs once, and one run until it returns. Fails only if allocation
    /// fails.
    ///
    /// ```
    /// use intervallum::proved::examples::*;
    ///
    /// fn main() -> Result<(), std::boxed::Box<dyn std::error::Error>> {
    ///     let alloc = Global;
    ///     let a = IntervalSet::new(alloc, 1, 5)?;
    ///     let other = a.symmetric_difference(&Interval::new(4, 9))?;
    ///     assert!(other == [(1, 3), (6, 9)].to_interval_set(alloc)?);
    ///     Ok(())
    /// }
    /// ```
    ///
    /// # Proved
    ///
    /// On success, the members are exactly the numbers that are either in the set or in the interval, and not in both, in at most one run more than the set has.
    ///
    /// ```text
    /// ensures members { IfOk result (λ L. IsRunsOf L (SymmetricDifference (Covers self.now) (IsBetween other.now))) }
    /// ensures runs_at_most { IfOk result (λ L. length L ≤ length self.now + 1) }
    /// ```
    ///
    /// Words: [`IsRunsOf`](crate::definitions#IsRunsOf), [`SymmetricDifference`](crate::definitions#SymmetricDifference), [`Covers`](crate::definitions#Covers), [`IsBetween`](crate::definitions#IsBetween).
    fn symmetric_difference(&self, other: &Interval<B>) -> Result<IntervalSet<B>, AllocError> {
        let all = IntervalSet::of(self.allocator(), *other)?;
        self.symmetric_difference(&all)
    }
}
