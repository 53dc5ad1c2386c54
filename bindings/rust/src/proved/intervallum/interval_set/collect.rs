// Written by bindings/rust/extract from crates/intervallum/src/interval_set/collect.rt.
//! Sets from intervals in any order, from an iterator over them, and from members in any order.

#[allow(unused_imports)]
use crate::rattle::prelude::*;
use super::IntervalSet;
use super::conversions::ToIntervalSet;
use crate::proved::intervallum::interval::Interval;
use crate::proved::intervallum::ops::{Singleton, Union};
use crate::proved::intervallum::sweep::coalesce;
use crate::proved::intervallum::width::Width;
use crate::rattle::std::alloc::{AllocError, Global};

/// Proved, with these words of the trait:
///
/// ```text
/// can_convert = { λ _. ⊤ }
/// pairs = { λ p. p ∷ [] }
/// ```
impl<B: Width> ToIntervalSet<B> for Interval<B> {
    /// Returns true: the bounds of an interval are in the range. `O(1)`.
    ///
    /// # Proved
    ///
    /// What [`ToIntervalSet::in_range`] says, by the words of the type.
    fn in_range(&self) -> bool {
        true
    }

    /// Returns the set of the members of the interval, which may be empty, as `IntervalSet::of`
    /// does. `O(1)`. Allocates one run, or nothing for an empty interval. Fails only if allocation
    /// fails.
    ///
    /// ```
    /// use intervallum::proved::examples::*;
    ///
    /// fn main() -> Result<(), std::boxed::Box<dyn std::error::Error>> {
    ///     let alloc = Global;
    ///     let a = Interval::new(1, 2).to_interval_set(alloc)?;
    ///     assert!(a == IntervalSet::new(alloc, 1, 2)?);
    ///     Ok(())
    /// }
    /// ```
    ///
    /// # Proved
    ///
    /// What [`ToIntervalSet::to_interval_set`] says, by the words of the type.
    fn to_interval_set(self, alloc: Global) -> Result<IntervalSet<B>, AllocError> {
        IntervalSet::of(alloc, self)
    }
}

/// Proved, with these words of the trait:
///
/// ```text
/// can_convert = { λ _. ⊤ }
/// pairs = { λ s. s.now }
/// ```
impl<B: Width> ToIntervalSet<B> for &[Interval<B>] {
    /// Returns true: the bounds of an interval are in the range. `O(1)`.
    ///
    /// # Proved
    ///
    /// What [`ToIntervalSet::in_range`] says, by the words of the type.
    fn in_range(&self) -> bool {
        true
    }

    /// Returns the set of the members of every interval, in any order. The intervals are unchanged.
    /// `O(n log n)` for `n` intervals. Needs memory as `coalesce` of a copy does. Fails only if
    /// allocation fails.
    ///
    /// ```
    /// use intervallum::proved::examples::*;
    ///
    /// fn main() -> Result<(), std::boxed::Box<dyn std::error::Error>> {
    ///     let alloc = Global;
    ///     let all = [Interval::new(3, 8), Interval::new(2, 5)];
    ///     assert!(all.as_slice().to_interval_set(alloc)? == IntervalSet::new(alloc, 2, 8)?);
    ///     Ok(())
    /// }
    /// ```
    ///
    /// # Proved
    ///
    /// What [`ToIntervalSet::to_interval_set`] says, by the words of the type.
    fn to_interval_set(self, alloc: Global) -> Result<IntervalSet<B>, AllocError> {
        of_intervals(alloc, self)
    }
}

/// Proved, with these words of the trait:
///
/// ```text
/// can_convert = { λ _. ⊤ }
/// pairs = { λ v. v.items }
/// ```
impl<B: Width> ToIntervalSet<B> for Vec<Interval<B>> {
    /// Returns true: the bounds of an interval are in the range. `O(1)`.
    ///
    /// # Proved
    ///
    /// What [`ToIntervalSet::in_range`] says, by the words of the type.
    fn in_range(&self) -> bool {
        true
    }

    /// Returns the set of the members of every interval, in any order, as `coalesce` does. The
    /// vector is consumed: if its intervals are sorted and apart, the set takes over its memory.
    /// `O(n log n)` for `n` intervals. Fails only if allocation fails.
    ///
    /// # Proved
    ///
    /// What [`ToIntervalSet::to_interval_set`] says, by the words of the type.
    fn to_interval_set(self, alloc: Global) -> Result<IntervalSet<B>, AllocError> {
        coalesce(alloc, self)
    }
}

/// Proved, with these words of the trait:
///
/// ```text
/// can_convert = { λ _. ⊤ }
/// pairs = { λ a. a }
/// ```
impl<B: Width, const N: usize> ToIntervalSet<B> for [Interval<B>; N] {
    /// Returns true: the bounds of an interval are in the range. `O(1)`.
    ///
    /// # Proved
    ///
    /// What [`ToIntervalSet::in_range`] says, by the words of the type.
    fn in_range(&self) -> bool {
        true
    }

    /// Returns the set of the members of every interval, in any order. `O(n log n)` for `n`
    /// intervals. Needs memory as `coalesce` of a copy does. Fails only if allocation fails.
    ///
    /// ```
    /// use intervallum::proved::examples::*;
    ///
    /// fn main() -> Result<(), std::boxed::Box<dyn std::error::Error>> {
    ///     let alloc = Global;
    ///     let a = [Interval::new(3, 8), Interval::new(2, 5)].to_interval_set(alloc)?;
    ///     assert!(a == IntervalSet::new(alloc, 2, 8)?);
    ///     Ok(())
    /// }
    /// ```
    ///
    /// # Proved
    ///
    /// What [`ToIntervalSet::to_interval_set`] says, by the words of the type.
    fn to_interval_set(self, alloc: Global) -> Result<IntervalSet<B>, AllocError> {
        of_intervals(alloc, &self)
    }
}

/// The set of the members of intervals in any order, which are copied first.
fn of_intervals<B: Width>(
    alloc: Global,
    intervals: &[Interval<B>],
) -> Result<IntervalSet<B>, AllocError> {
    coalesce(alloc, Vec::from_slice(alloc, intervals)?)
}

impl<B: Width> IntervalSet<B> {
    /// Returns the set of the members of every interval that an iterator yields, in any order; an
    /// empty interval adds nothing. The caller must ensure that the iterator ends.
    ///
    /// `O(k log k)` for `k` intervals. Needs memory for at most `2 k` runs, plus the spare capacity
    /// of the vector that collects the intervals. Fails only if allocation fails.
    ///
    /// ```
    /// use intervallum::proved::examples::*;
    ///
    /// fn main() -> Result<(), std::boxed::Box<dyn std::error::Error>> {
    ///     let alloc = Global;
    ///     let all = [Interval::new(7, 9), Interval::new(3, 4)];
    ///     let a = IntervalSet::collect(alloc, all.iter().copied())?;
    ///     assert!(a == [(3, 4), (7, 9)].to_interval_set(alloc)?);
    ///     Ok(())
    /// }
    /// ```
    ///
    /// # Proved
    ///
    /// On success, the members are exactly the numbers of the intervals that the iterator yields until it ends.
    ///
    /// ```text
    /// requires can { I.can_next intervals }
    /// requires ends { IsFinite (I.remaining intervals) }
    /// ensures { IfOk result (λ L. (items : List (ℤ × ℤ)) × Drains I.next_gives intervals items × IsRunsOf L (Covers items)) }
    /// ```
    ///
    /// Words: [`IsRunsOf`](crate::definitions#IsRunsOf), [`Covers`](crate::definitions#Covers).
    pub fn collect<I: Iterator<Item = Interval<B>> + Drop>(
        alloc: Global,
        intervals: I,
    ) -> Result<Self, AllocError> {
        let (at_least, _) = intervals.size_hint();
        let mut list = Vec::with_capacity(alloc, at_least)?;
        list.extend(intervals)?;
        coalesce(alloc, list)
    }

    /// Returns the set of the values of a slice, in any order and with repeats. The caller must
    /// ensure that each is in the range. Check with `Interval::whole().contains(&value)`.
    ///
    /// `O(k log k)` for `k` values. Reserves at most `2 k` runs. Fails only if allocation fails.
    ///
    /// ```
    /// use intervallum::proved::examples::*;
    ///
    /// fn main() -> Result<(), std::boxed::Box<dyn std::error::Error>> {
    ///     let alloc = Global;
    ///     let a = IntervalSet::of_members(alloc, &[5, 2, 1, 2])?;
    ///     assert!(a == [(1, 2), (5, 5)].to_interval_set(alloc)?);
    ///     Ok(())
    /// }
    /// ```
    ///
    /// # Proved
    ///
    /// On success, the members are exactly the numbers of the slice.
    ///
    /// ```text
    /// requires { All (λ x. IsBetween B.whole (B.value x)) items.now }
    /// ensures { IfOk result (λ L. IsRunsOf L (IsIn (map B.value items.now))) }
    /// ```
    ///
    /// Words: [`IsBetween`](crate::definitions#IsBetween), [`IsRunsOf`](crate::definitions#IsRunsOf), [`IsIn`](crate::definitions#IsIn).
    #[cfg_attr(debug_assertions, track_caller)]
    pub fn of_members(alloc: Global, items: &[B]) -> Result<Self, AllocError> {
        let mut list = Vec::with_capacity(alloc, items.len())?;
        for item in items {
            list.push_reserved(Interval::singleton(*item));
        }
        coalesce(alloc, list)
    }

    /// Adds the values of a slice, in any order and with repeats. The caller must ensure that each
    /// is in the range. Check with `Interval::whole().contains(&value)`.
    ///
    /// `O(k log k + n)` for `k` values. Needs memory for at most `2 k + n` runs at a time.
    ///
    /// # Errors
    ///
    /// Fails only if allocation fails. The set is then unchanged.
    ///
    /// ```
    /// use intervallum::proved::examples::*;
    ///
    /// fn main() -> Result<(), std::boxed::Box<dyn std::error::Error>> {
    ///     let alloc = Global;
    ///     let mut a = IntervalSet::new(alloc, 1, 2)?;
    ///     a.extend_members(&[9, 3, 9])?;
    ///     assert!(a == [(1, 3), (9, 9)].to_interval_set(alloc)?);
    ///     Ok(())
    /// }
    /// ```
    ///
    /// # Proved
    ///
    /// On success, exactly the numbers of the slice are added; on an error the set is unchanged.
    ///
    /// ```text
    /// requires { All (λ x. IsBetween B.whole (B.value x)) items.now }
    /// ensures ok { OnOk result (IsRunsOf self.new (Union (Covers self.old) (IsIn (map B.value items.now)))) }
    /// ensures err { OnErr result (self.new ≡ self.old) }
    /// ```
    ///
    /// Words: [`IsBetween`](crate::definitions#IsBetween), [`IsRunsOf`](crate::definitions#IsRunsOf), [`Union`](crate::definitions#Union), [`Covers`](crate::definitions#Covers), [`IsIn`](crate::definitions#IsIn).
    pub fn extend_members(&mut self, items: &[B]) -> Result<(), AllocError> {
        let added = IntervalSet::of_members(self.allocator(), items)?;
        let all = self.union(&added)?;
        *self = all;
        Ok(())
    }
}
