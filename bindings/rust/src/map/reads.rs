//! Queries.
use super::IntervalMap;
use super::below::{Entry, Held};
use super::iterators::{Iter, IterWithin, Values};
use crate::IntervalSet;
use crate::proved::ops::{Bounded as _, Cardinality as _, Intersection as _, IsEmpty as _, StrictShrinkLeft as _};
use crate::proved::width::{SizeNumber, Width};
use crate::proved::{AllocError, Interval, IntervalSet as ProvedIntervalSet};
use crate::set::Piece;
use crate::set::conditions::{broken, contract, memory, unless_broken};
use crate::set::reads::{ABOVE_0, as_range};
use core::ops::RangeInclusive;

/// An entry as the root shows it.
pub(super) fn shown<T: Width, V>((run, held): (Interval<T>, &Held<V>)) -> (RangeInclusive<T>, &V) {
    (as_range(&run), &held.0)
}

/// Sizes and single numbers.
impl<T: Width, V: Clone + Eq> IntervalMap<T, V> {
    /// Returns the number of entries. `O(1)`.
    ///
    /// ```
    /// # use intervallum::IntervalMap;
    /// let a = IntervalMap::from([(1..=5, "a"), (6..=7, "a"), (8..=9, "b")]);
    /// assert_eq!(a.interval_count(), 2);
    /// ```
    #[doc = contract!(IntervalMap "interval_count")]
    #[must_use]
    pub fn interval_count(&self) -> usize {
        self.entries().len()
    }

    /// Returns true exactly when no number has a value. `O(1)`.
    ///
    /// ```
    /// # use intervallum::IntervalMap;
    /// assert!(IntervalMap::from([(5..5, "a")]).is_empty() && !IntervalMap::from([(5..6, "a")]).is_empty());
    /// ```
    #[doc = contract!(IntervalMap "is_empty")]
    #[must_use]
    pub fn is_empty(&self) -> bool {
        self.0.as_ref().is_none_or(|map| map.is_empty())
    }

    /// Returns how many numbers have a value. `O(n)`.
    ///
    /// ```
    /// # use intervallum::IntervalMap;
    /// let a = IntervalMap::from([(1..=5u8, "a"), (8..=9, "b")]);
    /// assert_eq!((a.size(), a.interval_count()), (7, 2));
    /// ```
    #[doc = contract!(IntervalMap "size")]
    #[must_use]
    pub fn size(&self) -> T::Output {
        self.asked(|map| map.size())
    }

    /// Returns true exactly when a number has a value. `O(log n)`.
    ///
    /// ```
    /// # use intervallum::IntervalMap;
    /// let a = IntervalMap::from([(1..=5, "a"), (8..=9, "b")]);
    /// assert!(a.contains(5) && !a.contains(6));
    /// ```
    #[doc = contract!(IntervalMap "contains")]
    #[must_use]
    pub fn contains(&self, number: T) -> bool {
        self.0.as_ref().is_some_and(|map| map.contains(&number))
    }

    /// Returns the value of a number, or `None` if it has none. `O(log n)`.
    ///
    /// ```
    /// # use intervallum::IntervalMap;
    /// let a = IntervalMap::from([(1..=5u8, "a")]);
    /// assert_eq!((a.get(5), a.get(6), a.get(255)), (Some(&"a"), None, None));
    /// assert!(a.contains(5) && !a.contains(6));
    /// ```
    #[doc = contract!(IntervalMap "get")]
    #[must_use]
    #[inline]
    pub fn get(&self, number: T) -> Option<&V> {
        self.0.as_ref()?.get(&number).map(|held| &held.0)
    }

    /// Returns the entry of a number: the longest range with the number in it whose numbers all have equal values, and this
    /// value; or `None` if the number has none. `O(log n)`.
    ///
    /// ```
    /// # use intervallum::IntervalMap;
    /// let a = IntervalMap::from([(1..=5, "a"), (6..=9, "a")]);
    /// assert_eq!((a.get_run(3), a.get_run(10)), (Some((1..=9, &"a")), None));
    /// ```
    #[doc = contract!(IntervalMap "get_run")]
    #[must_use]
    pub fn get_run(&self, number: T) -> Option<(RangeInclusive<T>, &V)> {
        self.0.as_ref()?.get_run(number).map(shown)
    }

    /// Returns the entry with the least numbers, or `None` if there is none. `O(1)`.
    ///
    /// ```
    /// # use intervallum::IntervalMap;
    /// let a = IntervalMap::from([(8..=9, "b"), (1..=5, "a")]);
    /// assert_eq!(a.first(), Some((1..=5, &"a")));
    /// ```
    #[doc = contract!(IntervalMap "first")]
    #[must_use]
    pub fn first(&self) -> Option<(RangeInclusive<T>, &V)> {
        self.0.as_ref()?.first().map(shown)
    }

    /// Returns the entry with the greatest numbers, or `None` if there is none. `O(1)`.
    ///
    /// ```
    /// # use intervallum::IntervalMap;
    /// let a = IntervalMap::from([(8..=9, "b"), (1..=5, "a")]);
    /// assert_eq!(a.last(), Some((8..=9, &"b")));
    /// ```
    #[doc = contract!(IntervalMap "last")]
    #[must_use]
    pub fn last(&self) -> Option<(RangeInclusive<T>, &V)> {
        self.0.as_ref()?.last().map(shown)
    }

    /// Returns the entry of the least number that is at least `number` and has a value, or `None` if there is none. `O(log n)`.
    ///
    /// ```
    /// # use intervallum::IntervalMap;
    /// let a = IntervalMap::from([(1..=5, "a"), (8..=9, "b")]);
    /// assert_eq!((a.next_from(6), a.previous_to(6)), (Some((8..=9, &"b")), Some((1..=5, &"a"))));
    /// assert_eq!((a.first(), a.last()), (a.next_from(0), a.previous_to(10)));
    /// ```
    #[doc = contract!(IntervalMap "next_from")]
    #[must_use]
    pub fn next_from(&self, number: T) -> Option<(RangeInclusive<T>, &V)> {
        self.0.as_ref()?.next_from(number).map(shown)
    }

    /// Returns the entry of the greatest number that is at most `number` and has a value, or `None` if there is none. `O(log n)`.
    ///
    /// ```
    /// # use intervallum::IntervalMap;
    /// let a = IntervalMap::from([(1..=5, "a"), (8..=9, "b")]);
    /// assert_eq!((a.previous_to(7), a.previous_to(0)), (Some((1..=5, &"a")), None));
    /// ```
    #[doc = contract!(IntervalMap "previous_to")]
    #[must_use]
    pub fn previous_to(&self, number: T) -> Option<(RangeInclusive<T>, &V)> {
        self.0.as_ref()?.previous_to(number).map(shown)
    }
}

/// Iteration.
impl<T: Width, V: Clone + Eq> IntervalMap<T, V> {
    /// Returns a double-ended iterator over the entries, in ascending order: the run of each, and its value. Each step is `O(1)`.
    ///
    /// ```
    /// # use intervallum::IntervalMap;
    /// let a = IntervalMap::from([(8..=9, "b"), (1..=5, "a")]);
    /// assert_eq!(a.iter().collect::<Vec<_>>(), [(1..=5, &"a"), (8..=9, &"b")]);
    /// assert_eq!((a.iter().next_back(), a.iter().len()), (Some((8..=9, &"b")), 2));
    /// ```
    #[doc = contract!(over IntervalMap "entries")]
    #[must_use = "iterators do nothing unless they are consumed"]
    pub fn iter(&self) -> Iter<'_, T, V> {
        Iter(self.entries().iter())
    }

    /// Returns a double-ended iterator over the values of the entries, in ascending order of their numbers. Each step is `O(1)`.
    ///
    /// ```
    /// # use intervallum::IntervalMap;
    /// let a = IntervalMap::from([(8..=9, "b"), (1..=5, "a")]);
    /// assert_eq!(a.values().collect::<Vec<_>>(), [&"a", &"b"]);
    /// ```
    #[doc = contract!(over IntervalMap "entries")]
    #[must_use = "iterators do nothing unless they are consumed"]
    pub fn values(&self) -> Values<'_, T, V> {
        Values(self.entries().iter())
    }

    /// Returns a double-ended iterator over the whole entries that have numbers of a range, in ascending order. `O(log n)`; each
    /// step is `O(1)`.
    ///
    /// ```
    /// # use intervallum::IntervalMap;
    /// let a = IntervalMap::from([(1..=5, "a"), (8..=9, "b"), (12..=20, "c")]);
    /// assert_eq!(a.overlapping(5..=8).collect::<Vec<_>>(), [(1..=5, &"a"), (8..=9, &"b")]);
    /// ```
    #[doc = contract!(over IntervalMap "overlapping")]
    #[must_use = "iterators do nothing unless they are consumed"]
    pub fn overlapping(&self, range: impl Piece<T>) -> Iter<'_, T, V> {
        Iter(self.met(range.clamped()).iter())
    }

    /// Returns a double-ended iterator over the parts of entries that lie in a range, in ascending order: as
    /// [`overlapping`](Self::overlapping), but the first and the last run end where the range does. `O(log n)`; each step is `O(1)`.
    ///
    /// ```
    /// # use intervallum::IntervalMap;
    /// let a = IntervalMap::from([(1..=5, "a"), (8..=9, "b"), (12..=20, "c")]);
    /// assert_eq!(a.overlapping_within(4..=13).collect::<Vec<_>>(), [(4..=5, &"a"), (8..=9, &"b"), (12..=13, &"c")]);
    /// ```
    #[doc = contract!(over IntervalMap "overlapping")]
    #[must_use = "iterators do nothing unless they are consumed"]
    pub fn overlapping_within(&self, range: impl Piece<T>) -> IterWithin<'_, T, V> {
        let window = range.clamped();
        IterWithin { left: self.met(window).iter(), window }
    }

    /// The entries that have numbers of an interval.
    pub(super) fn met(&self, interval: Interval<T>) -> &[Entry<T, V>] {
        self.0.as_ref().map_or(&[], |map| map.overlapping(interval))
    }
}

/// Sets of numbers.
impl<T: Width, V: Clone + Eq> IntervalMap<T, V> {
    /// Returns true exactly when each number of a range has a value, so always for an empty range. `O(log n + k)` for the `k` entries of
    /// the range below the first gap.
    ///
    /// ```
    /// # use intervallum::IntervalMap;
    /// let a = IntervalMap::from([(1..=5u8, "a"), (6..=9, "b")]);
    /// assert!(a.includes(4..=9) && !a.includes(4..=10) && a.includes(20..20) && !a.includes(255..));
    /// ```
    #[doc = contract!(over IntervalMap "overlapping")]
    #[must_use]
    pub fn includes(&self, range: impl Piece<T>) -> bool {
        range.interval().is_some_and(|interval| {
            let mut left = interval;
            for (run, _) in self.met(interval) {
                if left.lower_bound() < run.lower() {
                    return false;
                }
                left = left.strict_shrink_left(run.upper());
            }
            left.is_empty()
        })
    }

    /// Returns true exactly when some number of a range has a value. `O(log n)`.
    ///
    /// ```
    /// # use intervallum::IntervalMap;
    /// let a = IntervalMap::from([(1..=5, "a"), (8..=9, "b")]);
    /// assert!(a.overlaps(5..=7) && !a.overlaps(6..=7) && !a.overlaps(8..8));
    /// ```
    #[doc = contract!(over IntervalMap "overlapping")]
    #[must_use]
    pub fn overlaps(&self, range: impl Piece<T>) -> bool {
        !self.met(range.clamped()).is_empty()
    }

    /// Returns how many numbers of a range have a value. `O(log n + k)` for the `k` entries of the range.
    ///
    /// ```
    /// # use intervallum::IntervalMap;
    /// let a = IntervalMap::from([(1..=5u8, "a"), (8..=9, "b")]);
    /// assert_eq!((a.size_within(4..=8), a.size_within(..), a.size_within(6..8)), (3, 7, 0));
    /// ```
    #[doc = contract!(over IntervalMap "overlapping")]
    #[must_use]
    pub fn size_within(&self, range: impl Piece<T>) -> T::Output {
        let window = range.clamped();
        let sizes = self.met(window).iter().map(|(run, _)| run.intersection(&window).size());
        // no more than the numbers of the range
        sizes.fold(SizeNumber::zero(), |sum, size| SizeNumber::add_in_range(sum, size))
    }

    /// Returns the set of the numbers that have a value. `O(n)`.
    ///
    /// ```
    /// # use intervallum::IntervalMap;
    /// let a = IntervalMap::from([(1..=5, "a"), (6..=9, "b"), (12..=12, "a")]);
    /// assert_eq!(a.keys().to_string(), "{[1..9][12..12]}");
    /// assert_eq!(a.numbers_with(|value| *value == "a").to_string(), "{[1..5][12..12]}");
    /// ```
    #[doc = contract!(IntervalMap "keys")]
    #[must_use]
    pub fn keys(&self) -> IntervalSet<T> {
        set(self.asked(|map| map.keys()))
    }

    /// Returns the set of the numbers whose value passes a test, which is asked once for each entry, in ascending order. `O(n)`.
    ///
    /// ```
    /// # use intervallum::IntervalMap;
    /// let seats = IntervalMap::from([(1..=5, 20), (6..=9, 35), (12..=12, 25)]);
    /// assert_eq!(seats.numbers_with(|euros| *euros <= 25).to_string(), "{[1..5][12..12]}");
    /// ```
    #[doc = contract!(IntervalMap "numbers_with")]
    #[must_use]
    pub fn numbers_with(&self, mut test: impl FnMut(&V) -> bool) -> IntervalSet<T> {
        set(self.asked(|map| map.numbers_with(|held| test(&held.0))))
    }

    /// Returns the numbers of a range that have no value, and are within the limits. `O(log n + k)` for the `k` entries in it.
    ///
    /// ```
    /// # use intervallum::IntervalMap;
    /// let a = IntervalMap::from([(1..=5, "a"), (8..=9, "b")]);
    /// assert_eq!(a.gaps_within(4..=12).to_string(), "{[6..7][10..12]}");
    /// ```
    #[doc = contract!(IntervalMap "gaps_within")]
    #[must_use]
    pub fn gaps_within(&self, range: impl Piece<T>) -> IntervalSet<T> {
        set(self.asked(|map| map.gaps_within(range.clamped())))
    }

    /// Returns the lowest `count` consecutive numbers of a range that have no value, and are within the limits, or `None` if there are
    /// none. `count` must be above 0. `O(log n + k)` for the `k` entries of the range below what it finds. Does not allocate.
    ///
    /// ```
    /// # use intervallum::IntervalMap;
    /// let a = IntervalMap::from([(1..=5u8, "a"), (8..=9, "b")]);
    /// assert_eq!((a.first_fit(1..=20, 2), a.first_fit(1..=20, 3), a.first_fit(..10, 3)), (Some(6..=7), Some(10..=12), None));
    /// ```
    #[doc = contract!(IntervalMap "first_fit")]
    #[must_use]
    #[track_caller]
    pub fn first_fit(&self, range: impl Piece<T>, count: T::Output) -> Option<RangeInclusive<T>> {
        unless_broken!(IntervalMap: self.checked_first_fit(range, count), ABOVE_0, "first_fit(.., 0)")
    }

    /// Returns [`first_fit`](Self::first_fit), or `None` if its condition does not hold.
    ///
    /// ```
    /// # use intervallum::IntervalMap;
    /// let a = IntervalMap::from([(1..=5u8, "a")]);
    /// assert_eq!((a.checked_first_fit(1.., 2), a.checked_first_fit(1.., 0)), (Some(Some(6..=7)), None));
    /// ```
    #[doc = contract!(of "first_fit")]
    #[must_use]
    pub fn checked_first_fit(&self, range: impl Piece<T>, count: T::Output) -> Option<Option<RangeInclusive<T>>> {
        let fit = || memory(self.asked(|map| map.first_fit(range.clamped(), count)));
        (count.number() > 0).then(|| fit().as_ref().map(as_range))
    }
}

/// The set of the root of a proved one.
fn set<T: Width>(made: Result<ProvedIntervalSet<T>, AllocError>) -> IntervalSet<T> {
    memory(made).into()
}
