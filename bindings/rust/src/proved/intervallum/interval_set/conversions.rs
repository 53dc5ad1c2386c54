// Written by bindings/rust/extract from crates/intervallum/src/interval_set/conversions.rt.
//! Sets into runs, sets extended by intervals, and sets from pairs.

#[allow(unused_imports)]
use crate::rattle::prelude::*;
use super::IntervalSet;
use crate::proved::intervallum::interval::Interval;
use crate::proved::intervallum::ops::{Range, Union};
use crate::proved::intervallum::sweep::coalesce;
use crate::proved::intervallum::width::Width;
use crate::rattle::std::alloc::{AllocError, Global};

use crate::rattle::std::vec;

/// A double-ended iterator over the runs of a set, by value and ascending, as `into_iter` returns
/// it. A contract sees the runs that are left.
///
/// ```
/// use intervallum::proved::examples::*;
///
/// fn main() -> Result<(), std::boxed::Box<dyn std::error::Error>> {
///     let alloc = Global;
///     let mut runs = IntervalSet::new(alloc, 1, 2)?.into_iter();
///     assert!(runs.next() == Some(Interval::new(1, 2)) && runs.next().is_none());
///     Ok(())
/// }
/// ```
pub struct IntoRuns<B: Width> {
    runs: vec::IntoIter<Interval<B>>,
}

impl<B: Width> IntoRuns<B> {
    pub(super) fn new(intervals: Vec<Interval<B>>) -> Self {
        IntoRuns {
            runs: intervals.into_iter(),
        }
    }
}

/// Proved, with these words of the trait:
///
/// It yields the first run that is left, or `None` if none is.
///
/// ```text
/// next_gives = { YieldsFirst (λ rest. rest) }
/// remaining = { item_count (λ rest. rest) }
/// ```
impl<B: Width> Iterator for IntoRuns<B> {
    type Item = Interval<B>;

    /// Returns the first run that is left, or `None` if there is none. `O(1)`. Does not allocate.
    ///
    /// ```
    /// use intervallum::proved::examples::*;
    ///
    /// fn main() -> Result<(), std::boxed::Box<dyn std::error::Error>> {
    ///     let alloc = Global;
    ///     let a: IntervalSet<i32> = [(1, 2), (5, 6)].to_interval_set(alloc)?;
    ///     let mut runs = a.into_iter();
    ///     assert!(runs.next() == Some(Interval::new(1, 2)));
    ///     Ok(())
    /// }
    /// ```
    fn next(&mut self) -> Option<Interval<B>> {
        self.runs.next()
    }
}

/// Proved, with these words of the trait:
///
/// It yields the last run that is left, or `None` if none is.
///
/// ```text
/// next_back_gives = { YieldsLast (λ rest. rest) }
/// ```
impl<B: Width> DoubleEndedIterator for IntoRuns<B> {
    /// Returns the last run that is left, or `None` if there is none. `O(1)`. Does not allocate.
    ///
    /// ```
    /// use intervallum::proved::examples::*;
    ///
    /// fn main() -> Result<(), std::boxed::Box<dyn std::error::Error>> {
    ///     let alloc = Global;
    ///     let a: IntervalSet<i32> = [(1, 2), (5, 6)].to_interval_set(alloc)?;
    ///     let mut runs = a.into_iter();
    ///     assert!(runs.next_back() == Some(Interval::new(5, 6)));
    ///     Ok(())
    /// }
    /// ```
    fn next_back(&mut self) -> Option<Interval<B>> {
        self.runs.next_back()
    }
}

/// Proved, with these words of the trait:
///
/// The iterator yields the runs of the set in order.
///
/// ```text
/// into_iter_gives = { λ s it. it ≡ s }
/// ```
impl<B: Width> IntoIterator for IntervalSet<B> {
    type Item = Interval<B>;

    type IntoIter = IntoRuns<B>;

    /// Consumes the set and returns a double-ended iterator over its runs, in ascending order.
    /// `O(1)`. Does not allocate.
    ///
    /// ```
    /// use intervallum::proved::examples::*;
    ///
    /// fn main() -> Result<(), std::boxed::Box<dyn std::error::Error>> {
    ///     let alloc = Global;
    ///     for run in IntervalSet::new(alloc, 1, 2)? {
    ///         assert_eq!(run.size(), 2u32);
    ///     }
    ///     Ok(())
    /// }
    /// ```
    fn into_iter(self) -> IntoRuns<B> {
        IntoRuns::new(self.into_runs())
    }
}

/// Proved, with these words of the trait:
///
/// ```text
/// into_iter_gives = { λ s it. it.rest.now ≡ s.now }
/// ```
impl<'a, B: Width> IntoIterator for &'a IntervalSet<B> {
    type Item = &'a Interval<B>;

    type IntoIter = crate::rattle::std::slice::Iter<'a, Interval<B>>;

    /// Returns a double-ended iterator over the runs, in ascending order, as `iter` does. `O(1)`.
    /// Does not allocate.
    ///
    /// ```
    /// use intervallum::proved::examples::*;
    ///
    /// fn main() -> Result<(), std::boxed::Box<dyn std::error::Error>> {
    ///     let alloc = Global;
    ///     let a: IntervalSet<i32> = [(1, 2), (5, 6)].to_interval_set(alloc)?;
    ///     for run in &a {
    ///         assert_eq!(run.size(), 2u32);
    ///     }
    ///     Ok(())
    /// }
    /// ```
    ///
    /// # Proved
    ///
    /// The iterator yields the runs in order; they are ascending, not empty, lie in the range, and neither overlap nor touch.
    ///
    /// ```text
    /// ensures rest { result.rest.now ≡ self.now }
    /// ensures runs { IsRunListIn B.whole self.now }
    /// ensures filled { All (λ run. HasSome (IsBetween run)) self.now }
    /// ```
    ///
    /// Words: [`IsRunListIn`](crate::definitions#IsRunListIn), [`HasSome`](crate::definitions#HasSome), [`IsBetween`](crate::definitions#IsBetween).
    fn into_iter(self) -> crate::rattle::std::slice::Iter<'a, Interval<B>> {
        self.iter()
    }
}

impl<B: Width> IntervalSet<B> {
    /// Adds the members of every interval that an iterator yields, in any order; an empty interval
    /// adds nothing. The caller must ensure that the iterator ends.
    ///
    /// A single interval is added in place, at the cost of `insert_interval`. Several are collected
    /// first, and the set is changed last. If allocation fails, the set is unchanged.
    ///
    /// `O(k log k + n)` for `k > 1` intervals. Needs memory for at most `2 k + n` runs at a time,
    /// plus the spare capacity of the vector that collects the intervals.
    ///
    /// ```
    /// use intervallum::proved::examples::*;
    ///
    /// fn main() -> Result<(), std::boxed::Box<dyn std::error::Error>> {
    ///     let alloc = Global;
    ///     let mut a = IntervalSet::new(alloc, 1, 2)?;
    ///     a.extend([Interval::new(7, 9), Interval::new(3, 4)].iter().copied())?;
    ///     assert!(a == [(1, 4), (7, 9)].to_interval_set(alloc)?);
    ///     Ok(())
    /// }
    /// ```
    ///
    /// # Proved
    ///
    /// On success, exactly the numbers of the intervals that the iterator yields until it ends are added; on an error the set is unchanged.
    ///
    /// ```text
    /// requires can { I.can_next iterator }
    /// requires ends { IsFinite (I.remaining iterator) }
    /// ensures ok { OnOk result ((items : List (ℤ × ℤ)) × Drains I.next_gives iterator items × IsRunsOf self.new (Union (Covers self.old) (Covers items))) }
    /// ensures err { OnErr result (self.new ≡ self.old) }
    /// ```
    ///
    /// Words: [`IsRunsOf`](crate::definitions#IsRunsOf), [`Union`](crate::definitions#Union), [`Covers`](crate::definitions#Covers).
    pub fn extend<I: Iterator<Item = Interval<B>> + Drop>(
        &mut self,
        mut iterator: I,
    ) -> Result<(), AllocError> {
        self.in_whole();
        let Some(first) = iterator.next() else {
            return Ok(());
        };
        let Some(second) = iterator.next() else {
            return self.insert_interval(first);
        };
        let added = gathered(self.allocator(), first, second, iterator)?;
        let all = self.union(&added)?;
        *self = all;
        Ok(())
    }
}

/// The set of the members of two items and all others of an iterator.
fn gathered<B: Width, I: Iterator<Item = Interval<B>> + Drop>(
    alloc: Global,
    first: Interval<B>,
    second: Interval<B>,
    others: I,
) -> Result<IntervalSet<B>, AllocError> {
    let (at_least, _) = others.size_hint();
    let mut list = Vec::with_capacity(alloc, at_least.saturating_add(2))?;
    list.push_reserved(first);
    list.push_reserved(second);
    list.extend(others)?;
    coalesce(alloc, list)
}

/// A value that can be converted to a set: a pair of bounds, or a slice, a vector or an array of
/// pairs.
///
/// ```
/// use intervallum::proved::examples::*;
///
/// fn main() -> Result<(), std::boxed::Box<dyn std::error::Error>> {
///     let alloc = Global;
///     let a: IntervalSet<i32> = (2, 8).to_interval_set(alloc)?;
///     assert!(a == IntervalSet::new(alloc, 2, 8)?);
///     Ok(())
/// }
/// ```
///
/// Words and laws of the contracts:
///
/// ```text
/// can_convert: { Self → Type 0 }
/// pairs: { Self → List (ℤ × ℤ) }
/// ```
pub trait ToIntervalSet<B: Width> {
    /// Returns true exactly when `to_interval_set` may be called: no lower bound is below the range
    /// of the type and no upper bound is above it. Bounds may cross. `O(n)` for `n` pairs. Does not
    /// allocate.
    ///
    /// ```
    /// use intervallum::proved::examples::*;
    ///
    /// fn main() -> Result<(), std::boxed::Box<dyn std::error::Error>> {
    ///     let alloc = Global;
    ///     assert!([(1u8, 9), (5, 2)].in_range() && ![(1u8, 9), (0, 255)].in_range());
    ///     Ok(())
    /// }
    /// ```
    ///
    /// # Proved
    ///
    /// True exactly when the condition of `to_interval_set` holds.
    ///
    /// ```text
    /// ensures { IsTrue result ↔ can_convert self.now }
    /// ```
    fn in_range(&self) -> bool;

    /// Returns the set of the members of every pair. The caller must ensure that the bounds of each
    /// pair are in the range. Check with `in_range`. Pairs may be in any order and overlap; a pair
    /// whose bounds cross adds nothing.
    ///
    /// `O(n log n)` for `n` pairs. Needs memory as `coalesce` of a list of them does: for `2 n` runs
    /// at a time, and at most `2 n` counts of 4 bytes. Fails only if allocation fails.
    ///
    /// ```
    /// use intervallum::proved::examples::*;
    ///
    /// fn main() -> Result<(), std::boxed::Box<dyn std::error::Error>> {
    ///     let alloc = Global;
    ///     let a: IntervalSet<i32> = [(3, 8), (2, 5), (9, 4)].to_interval_set(alloc)?;
    ///     assert!(a == IntervalSet::new(alloc, 2, 8)?);
    ///     Ok(())
    /// }
    /// ```
    ///
    /// # Proved
    ///
    /// On success, the members are exactly the numbers of the given pairs.
    ///
    /// ```text
    /// requires { can_convert self }
    /// ensures { IfOk result (λ L. IsRunsOf L (Covers (pairs self))) }
    /// ```
    ///
    /// Words: [`IsRunsOf`](crate::definitions#IsRunsOf), [`Covers`](crate::definitions#Covers).
    fn to_interval_set(self, alloc: Global) -> Result<IntervalSet<B>, AllocError>;
}

/// Proved, with these words of the trait:
///
/// ```text
/// can_convert = { λ p. IsInRange B.whole (B.value p.0, B.value p.1) }
/// pairs = { λ p. (B.value p.0, B.value p.1) ∷ [] }
/// ```
///
/// Words: [`IsInRange`](crate::definitions#IsInRange).
impl<B: Width> ToIntervalSet<B> for (B, B) {
    /// Returns true exactly when `Interval::in_range` is true of the two bounds. `O(1)`.
    ///
    /// # Proved
    ///
    /// What [`ToIntervalSet::in_range`] says, by the words of the type.
    fn in_range(&self) -> bool {
        Interval::in_range(self.0, self.1)
    }

    /// Returns the set of the numbers from the first to the second, which is empty if they cross.
    /// `O(1)`. Reserves at most two runs. Fails only if allocation fails.
    ///
    /// # Proved
    ///
    /// What [`ToIntervalSet::to_interval_set`] says, by the words of the type.
    #[cfg_attr(debug_assertions, track_caller)]
    fn to_interval_set(self, alloc: Global) -> Result<IntervalSet<B>, AllocError> {
        let mut list = Vec::with_capacity(alloc, 1)?;
        list.push_reserved(Interval::new(self.0, self.1));
        coalesce(alloc, list)
    }
}

/// Proved, with these words of the trait:
///
/// ```text
/// can_convert = { λ s. All (λ p. IsInRange B.whole (B.value p.0, B.value p.1)) s.now }
/// pairs = { λ s. map (λ p. (B.value p.0, B.value p.1)) s.now }
/// ```
///
/// Words: [`IsInRange`](crate::definitions#IsInRange).
impl<B: Width> ToIntervalSet<B> for &[(B, B)] {
    /// Returns true exactly when `Interval::in_range` is true of each pair. `O(n)` for `n` pairs.
    ///
    /// # Proved
    ///
    /// What [`ToIntervalSet::in_range`] says, by the words of the type.
    fn in_range(&self) -> bool {
        are_in_range(self)
    }

    /// Returns the set of the members of every pair. The pairs are unchanged. `O(n log n)` for `n`
    /// pairs. Fails only if allocation fails.
    ///
    /// # Proved
    ///
    /// What [`ToIntervalSet::to_interval_set`] says, by the words of the type.
    #[cfg_attr(debug_assertions, track_caller)]
    fn to_interval_set(self, alloc: Global) -> Result<IntervalSet<B>, AllocError> {
        of_pairs(alloc, self)
    }
}

/// Proved, with these words of the trait:
///
/// ```text
/// can_convert = { λ v. All (λ p. IsInRange B.whole (B.value p.0, B.value p.1)) v.items }
/// pairs = { λ v. map (λ p. (B.value p.0, B.value p.1)) v.items }
/// ```
///
/// Words: [`IsInRange`](crate::definitions#IsInRange).
impl<B: Width> ToIntervalSet<B> for Vec<(B, B)> {
    /// Returns true exactly when `Interval::in_range` is true of each pair. `O(n)` for `n` pairs.
    ///
    /// # Proved
    ///
    /// What [`ToIntervalSet::in_range`] says, by the words of the type.
    fn in_range(&self) -> bool {
        are_in_range(self.as_slice())
    }

    /// Returns the set of the members of every pair. The vector is consumed. `O(n log n)` for `n`
    /// pairs. Fails only if allocation fails.
    ///
    /// # Proved
    ///
    /// What [`ToIntervalSet::to_interval_set`] says, by the words of the type.
    #[cfg_attr(debug_assertions, track_caller)]
    fn to_interval_set(self, alloc: Global) -> Result<IntervalSet<B>, AllocError> {
        of_pairs(alloc, self.as_slice())
    }
}

/// Proved, with these words of the trait:
///
/// ```text
/// can_convert = { λ a. All (λ p. IsInRange B.whole (B.value p.0, B.value p.1)) a }
/// pairs = { λ a. map (λ p. (B.value p.0, B.value p.1)) a }
/// ```
///
/// Words: [`IsInRange`](crate::definitions#IsInRange).
impl<B: Width, const N: usize> ToIntervalSet<B> for [(B, B); N] {
    /// Returns true exactly when `Interval::in_range` is true of each pair. `O(n)` for `n` pairs.
    ///
    /// # Proved
    ///
    /// What [`ToIntervalSet::in_range`] says, by the words of the type.
    fn in_range(&self) -> bool {
        are_in_range(self)
    }

    /// Returns the set of the members of every pair. `O(n log n)` for `n` pairs. Fails only if
    /// allocation fails.
    ///
    /// # Proved
    ///
    /// What [`ToIntervalSet::to_interval_set`] says, by the words of the type.
    #[cfg_attr(debug_assertions, track_caller)]
    fn to_interval_set(self, alloc: Global) -> Result<IntervalSet<B>, AllocError> {
        of_pairs(alloc, &self)
    }
}

/// The bounds of each pair are those of an interval.
fn are_in_range<B: Width>(pairs: &[(B, B)]) -> bool {
    pairs
        .iter()
        .all(|(lower, upper)| Interval::in_range(*lower, *upper))
}

fn of_pairs<B: Width>(alloc: Global, pairs: &[(B, B)]) -> Result<IntervalSet<B>, AllocError> {
    let mut list = Vec::with_capacity(alloc, pairs.len())?;
    for (lower, upper) in pairs {
        list.push_reserved(Interval::new(*lower, *upper));
    }
    coalesce(alloc, list)
}
