// Written by bindings/rust/extract from crates/intervallum/src/interval_set/ranges.rt.
//! Sets from the ranges of std that have bounds of their own: `a..=b`, `a..` and `..=b`.

#[allow(unused_imports)]
use crate::rattle::prelude::*;
use super::IntervalSet;
use super::conversions::ToIntervalSet;
use crate::proved::intervallum::interval::Interval;
use crate::proved::intervallum::ops::{Contains, Range, ToInterval, Whole};
use crate::proved::intervallum::sweep::coalesce;
use crate::proved::intervallum::width::Width;
use crate::rattle::std::alloc::{AllocError, Global};
use crate::rattle::std::ops::{RangeFrom, RangeInclusive, RangeToInclusive};

/// Proved, with these words of the trait:
///
/// ```text
/// can_convert = { λ range. IsInRange B.whole (B.value (range_inclusive_start range), B.value (range_inclusive_end range)) }
/// pairs = { λ range. (B.value (range_inclusive_start range), B.value (range_inclusive_end range)) ∷ [] }
/// ```
///
/// Words: [`IsInRange`](crate::definitions#IsInRange).
impl<B: Width> ToIntervalSet<B> for RangeInclusive<B> {
    /// Returns true exactly when `Interval::in_range` is true of the start and the end. `O(1)`.
    ///
    /// # Proved
    ///
    /// What [`ToIntervalSet::in_range`] says, by the words of the type.
    fn in_range(&self) -> bool {
        is_in_range(self)
    }

    /// Returns the set of the numbers from the start to the end of `a..=b`, which is empty if
    /// `a > b`. A range that an iteration has used up still has its end. `O(1)`. Allocates one run,
    /// or nothing for an empty range. Fails only if allocation fails.
    ///
    /// ```
    /// use intervallum::proved::examples::*;
    ///
    /// fn main() -> Result<(), std::boxed::Box<dyn std::error::Error>> {
    ///     let alloc = Global;
    ///     assert!((1..=5).to_interval_set(alloc)? == IntervalSet::new(alloc, 1, 5)?);
    ///     let none: IntervalSet<i32> = (5..=3).to_interval_set(alloc)?;
    ///     assert!(none.is_empty());
    ///     Ok(())
    /// }
    /// ```
    ///
    /// # Proved
    ///
    /// What [`ToIntervalSet::to_interval_set`] says, by the words of the type.
    #[cfg_attr(debug_assertions, track_caller)]
    fn to_interval_set(self, alloc: Global) -> Result<IntervalSet<B>, AllocError> {
        let interval: Interval<B> = self.to_interval();
        interval.to_interval_set(alloc)
    }
}

/// Proved, with these words of the trait:
///
/// ```text
/// can_convert = { λ range. IsBetween B.whole (B.value range.start) }
/// pairs = { λ range. (B.value range.start, B.whole.1) ∷ [] }
/// ```
///
/// Words: [`IsBetween`](crate::definitions#IsBetween).
impl<B: Width> ToIntervalSet<B> for RangeFrom<B> {
    /// Returns true exactly when the start is in the range of its type. `O(1)`.
    ///
    /// # Proved
    ///
    /// What [`ToIntervalSet::in_range`] says, by the words of the type.
    fn in_range(&self) -> bool {
        Interval::whole().contains(&self.start)
    }

    /// Returns the set of the numbers from the start of `a..` to the greatest value of the range.
    /// `O(1)`. Allocates one run. Fails only if allocation fails.
    ///
    /// ```
    /// use intervallum::proved::examples::*;
    ///
    /// fn main() -> Result<(), std::boxed::Box<dyn std::error::Error>> {
    ///     let alloc = Global;
    ///     assert!((250u8..).to_interval_set(alloc)? == IntervalSet::new(alloc, 250, 254)?);
    ///     Ok(())
    /// }
    /// ```
    ///
    /// # Proved
    ///
    /// What [`ToIntervalSet::to_interval_set`] says, by the words of the type.
    #[cfg_attr(debug_assertions, track_caller)]
    fn to_interval_set(self, alloc: Global) -> Result<IntervalSet<B>, AllocError> {
        let interval: Interval<B> = self.to_interval();
        interval.to_interval_set(alloc)
    }
}

/// Proved, with these words of the trait:
///
/// ```text
/// can_convert = { λ range. IsBetween B.whole (B.value range.end) }
/// pairs = { λ range. (B.whole.0, B.value range.end) ∷ [] }
/// ```
///
/// Words: [`IsBetween`](crate::definitions#IsBetween).
impl<B: Width> ToIntervalSet<B> for RangeToInclusive<B> {
    /// Returns true exactly when the end is in the range of its type. `O(1)`.
    ///
    /// # Proved
    ///
    /// What [`ToIntervalSet::in_range`] says, by the words of the type.
    fn in_range(&self) -> bool {
        Interval::whole().contains(&self.end)
    }

    /// Returns the set of the numbers from the least value of the range to the end of `..=b`.
    /// `O(1)`. Allocates one run. Fails only if allocation fails.
    ///
    /// ```
    /// use intervallum::proved::examples::*;
    ///
    /// fn main() -> Result<(), std::boxed::Box<dyn std::error::Error>> {
    ///     let alloc = Global;
    ///     assert!((..=5u8).to_interval_set(alloc)? == IntervalSet::new(alloc, 0, 5)?);
    ///     Ok(())
    /// }
    /// ```
    ///
    /// # Proved
    ///
    /// What [`ToIntervalSet::to_interval_set`] says, by the words of the type.
    #[cfg_attr(debug_assertions, track_caller)]
    fn to_interval_set(self, alloc: Global) -> Result<IntervalSet<B>, AllocError> {
        let interval: Interval<B> = self.to_interval();
        interval.to_interval_set(alloc)
    }
}

/// Proved, with these words of the trait:
///
/// ```text
/// can_convert = { λ s. All (λ range. IsInRange B.whole (B.value (range_inclusive_start range), B.value (range_inclusive_end range))) s.now }
/// pairs = { λ s. map (λ range. (B.value (range_inclusive_start range), B.value (range_inclusive_end range))) s.now }
/// ```
///
/// Words: [`IsInRange`](crate::definitions#IsInRange).
impl<B: Width> ToIntervalSet<B> for &[RangeInclusive<B>] {
    /// Returns true exactly when `Interval::in_range` is true of the start and the end of each range.
    /// `O(n)` for `n` ranges.
    ///
    /// # Proved
    ///
    /// What [`ToIntervalSet::in_range`] says, by the words of the type.
    fn in_range(&self) -> bool {
        are_in_range(self)
    }

    /// Returns the set of the numbers of every range, in any order; one whose start is above its end
    /// adds nothing. The ranges are unchanged. `O(n log n)` for `n` ranges. Needs memory
    /// as `coalesce` does. Fails only if allocation fails.
    ///
    /// # Proved
    ///
    /// What [`ToIntervalSet::to_interval_set`] says, by the words of the type.
    #[cfg_attr(debug_assertions, track_caller)]
    fn to_interval_set(self, alloc: Global) -> Result<IntervalSet<B>, AllocError> {
        of_ranges(alloc, self)
    }
}

/// Proved, with these words of the trait:
///
/// ```text
/// can_convert = { λ v. All (λ range. IsInRange B.whole (B.value (range_inclusive_start range), B.value (range_inclusive_end range))) v.items }
/// pairs = { λ v. map (λ range. (B.value (range_inclusive_start range), B.value (range_inclusive_end range))) v.items }
/// ```
///
/// Words: [`IsInRange`](crate::definitions#IsInRange).
impl<B: Width> ToIntervalSet<B> for Vec<RangeInclusive<B>> {
    /// Returns true exactly when `Interval::in_range` is true of the start and the end of each range.
    /// `O(n)` for `n` ranges.
    ///
    /// # Proved
    ///
    /// What [`ToIntervalSet::in_range`] says, by the words of the type.
    fn in_range(&self) -> bool {
        are_in_range(self.as_slice())
    }

    /// Returns the set of the numbers of every range, in any order; one whose start is above its end
    /// adds nothing. The vector is consumed. `O(n log n)` for `n` ranges. Needs memory
    /// as `coalesce` does. Fails only if allocation fails.
    ///
    /// # Proved
    ///
    /// What [`ToIntervalSet::to_interval_set`] says, by the words of the type.
    #[cfg_attr(debug_assertions, track_caller)]
    fn to_interval_set(self, alloc: Global) -> Result<IntervalSet<B>, AllocError> {
        of_ranges(alloc, self.as_slice())
    }
}

/// Proved, with these words of the trait:
///
/// ```text
/// can_convert = { λ a. All (λ range. IsInRange B.whole (B.value (range_inclusive_start range), B.value (range_inclusive_end range))) a }
/// pairs = { λ a. map (λ range. (B.value (range_inclusive_start range), B.value (range_inclusive_end range))) a }
/// ```
///
/// Words: [`IsInRange`](crate::definitions#IsInRange).
impl<B: Width, const N: usize> ToIntervalSet<B> for [RangeInclusive<B>; N] {
    /// Returns true exactly when `Interval::in_range` is true of the start and the end of each range.
    /// `O(n)` for `n` ranges.
    ///
    /// # Proved
    ///
    /// What [`ToIntervalSet::in_range`] says, by the words of the type.
    fn in_range(&self) -> bool {
        are_in_range(self)
    }

    /// Returns the set of the numbers of every range, in any order; one whose start is above its end
    /// adds nothing. `O(n log n)` for `n` ranges. Needs memory as `coalesce` does. Fails only
    /// if allocation fails.
    ///
    /// ```
    /// use intervallum::proved::examples::*;
    ///
    /// fn main() -> Result<(), std::boxed::Box<dyn std::error::Error>> {
    ///     let alloc = Global;
    ///     let hours = [12..=13u8, 8..=11].to_interval_set(alloc)?;
    ///     assert!(hours == IntervalSet::new(alloc, 8, 13)?);
    ///     Ok(())
    /// }
    /// ```
    ///
    /// # Proved
    ///
    /// What [`ToIntervalSet::to_interval_set`] says, by the words of the type.
    #[cfg_attr(debug_assertions, track_caller)]
    fn to_interval_set(self, alloc: Global) -> Result<IntervalSet<B>, AllocError> {
        of_ranges(alloc, &self)
    }
}

/// The start and the end are bounds of an interval.
fn is_in_range<B: Width>(range: &RangeInclusive<B>) -> bool {
    Interval::in_range(*range.start(), *range.end())
}

/// The start and the end of each range are bounds of an interval.
fn are_in_range<B: Width>(ranges: &[RangeInclusive<B>]) -> bool {
    ranges.iter().all(|range| is_in_range(range))
}

/// The set of the numbers of ranges in any order.
fn of_ranges<B: Width>(
    alloc: Global,
    ranges: &[RangeInclusive<B>],
) -> Result<IntervalSet<B>, AllocError> {
    let mut list = Vec::with_capacity(alloc, ranges.len())?;
    for range in ranges {
        list.push_reserved(Interval::new(*range.start(), *range.end()));
    }
    coalesce(alloc, list)
}
