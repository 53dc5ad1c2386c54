//! Edits in place.
use super::IntervalMap;
use super::below::{Entry, Held};
use super::making::{entries_of, gathered};
use super::sweep::swept;
use crate::proved::ops::{
    Bounded as _, Intersection as _, IsEmpty as _, Range as _, StrictShrinkLeft as _, StrictShrinkRight as _,
};
use crate::proved::{Interval, width::Width};
use crate::set::conditions::{contract, memory};
use crate::set::making::interval_of;
use crate::set::reads::as_range;
use crate::set::{AnySet, Piece};
use alloc::vec::Vec;
use core::cell::RefCell;
use core::mem;
use core::ops::RangeInclusive;

/// Edits in place.
impl<T: Width, V: Clone + Eq> IntervalMap<T, V> {
    /// Gives each number of a range a value, whatever values they had before. All must be within the limits. An entry that touches the
    /// range and has an equal value grows. `O(log n)`, or `O(n)` if the number of entries changes. Within an entry the value of this
    /// is copied.
    ///
    /// ```
    /// # use intervallum::IntervalMap;
    /// let mut a = IntervalMap::new();
    /// a.insert(1..=9u8, "a");
    /// a.insert(4..=5, "b");
    /// assert_eq!((a.get(3), a.get(4), a.get(6)), (Some(&"a"), Some(&"b"), Some(&"a")));
    /// a.insert(4..=5, "a");
    /// assert_eq!((a.interval_count(), a.checked_insert(9..=255, "c")), (1, None));
    /// ```
    #[doc = contract!(IntervalMap "insert")]
    #[track_caller]
    pub fn insert(&mut self, range: impl Piece<T>, value: V) {
        self.write(interval_of("IntervalMap", "insert", &range), value);
    }

    /// Does what [`insert`](Self::insert) does, or returns `None` if its condition does not hold.
    ///
    /// ```
    /// # use intervallum::IntervalMap;
    /// let mut a = IntervalMap::new();
    /// assert_eq!((a.checked_insert(1..=9u8, "a"), a.checked_insert(9..=255, "b")), (Some(()), None));
    /// assert_eq!(a.get(9), Some(&"a"));
    /// ```
    #[doc = contract!(of "insert")]
    #[must_use = "`None` says that no value was written"]
    pub fn checked_insert(&mut self, range: impl Piece<T>, value: V) -> Option<()> {
        self.write(range.interval()?, value);
        Some(())
    }

    fn write(&mut self, interval: Interval<T>, value: V) {
        memory(self.edited().insert(interval, Held(value)));
    }

    /// Gives each number of a range a value, if none of them has one yet; otherwise returns the first entry in the way, and
    /// changes nothing. All must be within the limits. `O(log n)`, or `O(n)` if the number of entries changes.
    ///
    /// ```
    /// # use intervallum::IntervalMap;
    /// let mut a = IntervalMap::from([(1..=5, "a")]);
    /// assert_eq!(a.insert_if_free(4..=9, "b"), Err((1..=5, &"a")));
    /// assert_eq!(a.insert_if_free(6..=9, "b"), Ok(()));
    /// ```
    #[doc = contract!(IntervalMap "insert_if_free")]
    #[track_caller]
    pub fn insert_if_free(&mut self, range: impl Piece<T>, value: V) -> Result<(), (RangeInclusive<T>, &V)> {
        self.write_if_free(interval_of("IntervalMap", "insert_if_free", &range), value)
    }

    /// Does what [`insert_if_free`](Self::insert_if_free) does, or returns `None` if its condition does not hold.
    ///
    /// ```
    /// # use intervallum::IntervalMap;
    /// let mut a = IntervalMap::from([(1..=5u8, "a")]);
    /// assert_eq!(a.checked_insert_if_free(4..=9, "b"), Some(Err((1..=5, &"a"))));
    /// assert_eq!(a.checked_insert_if_free(6..=255, "b"), None);
    /// ```
    #[doc = contract!(of "insert_if_free")]
    #[must_use = "`None` says that no value was written"]
    pub fn checked_insert_if_free(
        &mut self,
        range: impl Piece<T>,
        value: V,
    ) -> Option<Result<(), (RangeInclusive<T>, &V)>> {
        Some(self.write_if_free(range.interval()?, value))
    }

    fn write_if_free(&mut self, interval: Interval<T>, value: V) -> Result<(), (RangeInclusive<T>, &V)> {
        match memory(self.edited().insert_if_free(interval, Held(value))) {
            // the entry in the way is not empty
            Some(run) => self.get_run(run.lower()).map_or(Ok(()), Err),
            None => Ok(()),
        }
    }

    /// Removes the values of the numbers of a range, and returns true exactly when some of them had one. `O(log n)`, or `O(n)` if the
    /// number of entries changes. Within an entry the value of this is copied.
    ///
    /// ```
    /// # use intervallum::IntervalMap;
    /// let mut a = IntervalMap::from([(1..=9, "a")]);
    /// assert!(a.remove(4..=5) && !a.remove(4..=5) && !a.remove(10..));
    /// assert_eq!(a.iter().collect::<Vec<_>>(), [(1..=3, &"a"), (6..=9, &"a")]);
    /// ```
    #[doc = contract!(IntervalMap "remove")]
    pub fn remove(&mut self, range: impl Piece<T>) -> bool {
        let interval = range.clamped();
        let had_some = !self.met(interval).is_empty();
        if had_some {
            memory(self.edited().remove(interval));
        }
        had_some
    }

    /// Removes all values. Keeps the capacity.
    ///
    /// ```
    /// # use intervallum::IntervalMap;
    /// let mut a = IntervalMap::from([(1..=5, "a")]);
    /// a.clear();
    /// assert!(a.is_empty());
    /// ```
    #[doc = contract!(IntervalMap "clear")]
    pub fn clear(&mut self) {
        self.edited().clear();
    }

    /// Changes the values of the numbers of a range: each that has a value gets what a function returns for it. The function is asked
    /// once for each entry that has numbers of the range, in ascending order. `O(log n + k)` for the `k` entries of the range, or `O(n)` if the
    /// number of entries changes; copies the values of the entries next to the range and of those that it splits. If the function panics,
    /// the map is unchanged.
    ///
    /// ```
    /// # use intervallum::IntervalMap;
    /// let mut price = IntervalMap::from([(1..=9, 100), (12..=20, 70)]);
    /// price.update(8.., |euros| euros / 2);
    /// assert_eq!(price.iter().collect::<Vec<_>>(), [(1..=7, &100), (8..=9, &50), (12..=20, &35)]);
    /// ```
    #[doc = contract!(IntervalMap "update")]
    pub fn update(&mut self, range: impl Piece<T>, change: impl FnMut(&V) -> V) {
        let interval = range.clamped();
        // the proved map asks a function that changes nothing
        let change = RefCell::new(change);
        let changed = |held: &Held<V>| Ok(Held((change.borrow_mut())(&held.0)));
        memory(self.edited().update(interval, changed));
    }

    /// Gives the numbers of a range what a function returns for the value that they had, or for `None` if they had none; where it
    /// returns `None`, they have no value. All numbers must be within the limits. The function is asked once for each entry that has numbers of
    /// the range, and once for each gap between, in ascending order. `O(log n + k)` for the `k` entries of the range, and as long as
    /// [`extend`](Extend::extend) of what it returned. If the function panics, the map is unchanged.
    ///
    /// ```
    /// # use intervallum::IntervalMap;
    /// let mut readers = IntervalMap::new();
    /// for range in [1..=5, 4..=9, 5..=5] {
    ///     readers.combine(range, |old| Some(old.map_or(1, |count| count + 1)));
    /// }
    /// assert_eq!(readers.iter().collect::<Vec<_>>(), [(1..=3, &1), (4..=4, &2), (5..=5, &3), (6..=9, &1)]);
    /// readers.combine(4..=9, |old| old.filter(|count| **count > 1).map(|count| count - 1));
    /// assert_eq!(readers.iter().collect::<Vec<_>>(), [(1..=4, &1), (5..=5, &2)]);
    /// ```
    #[doc = contract!(over IntervalMap "overlapping")]
    #[track_caller]
    pub fn combine(&mut self, range: impl Piece<T>, change: impl FnMut(Option<&V>) -> Option<V>) {
        self.combine_at(interval_of("IntervalMap", "combine", &range), change);
    }

    /// Does what [`combine`](Self::combine) does, or returns `None` and asks nothing if its condition does not hold.
    ///
    /// ```
    /// # use intervallum::IntervalMap;
    /// let mut a = IntervalMap::from([(1..=5u8, 'a')]);
    /// assert_eq!(a.checked_combine(5..=6, |old| old.copied().or(Some('b'))), Some(()));
    /// assert_eq!(a.checked_combine(7..=255, |_| Some('c')), None);
    /// assert_eq!(a, IntervalMap::from([(1..=5, 'a'), (6..=6, 'b')]));
    /// ```
    #[doc = contract!(of "combine")]
    #[must_use = "`None` says that nothing was changed"]
    pub fn checked_combine(&mut self, range: impl Piece<T>, change: impl FnMut(Option<&V>) -> Option<V>) -> Option<()> {
        self.combine_at(range.interval()?, change);
        Some(())
    }

    fn combine_at(&mut self, interval: Interval<T>, mut change: impl FnMut(Option<&V>) -> Option<V>) {
        let (mut made, mut left, mut is_cut) = (Vec::new(), interval, false);
        let mut ask = |part: Interval<T>, old: Option<&V>| match (part.is_empty(), old) {
            (true, _) => {}
            (false, old) => match change(old) {
                Some(value) => made.push((part, Held(value))),
                None => is_cut |= old.is_some(),
            },
        };
        for (run, held) in self.met(interval) {
            ask(left.strict_shrink_right(run.lower()), None);
            ask(left.intersection(run), Some(&held.0));
            left = left.strict_shrink_left(run.upper());
        }
        ask(left, None);
        if is_cut {
            memory(self.edited().remove(interval));
        }
        self.write_all(made);
    }

    /// Keeps the entries for which a function returns true, and removes the values of the others. It is asked of each entry once, in
    /// ascending order. `O(n)`. Copies no value. If the function panics, the entries are kept that it was not asked of.
    ///
    /// ```
    /// # use intervallum::IntervalMap;
    /// let mut leases = IntervalMap::from([(1..=5, 70), (6..=9, 30), (12..=20, 90)]);
    /// leases.retain(|run, end| *end > 50 && *run.end() < 20);
    /// assert_eq!(leases, IntervalMap::from([(1..=5, 70)]));
    /// ```
    #[doc = contract!(over IntervalMap "into_entries")]
    pub fn retain(&mut self, mut keep: impl FnMut(&RangeInclusive<T>, &V) -> bool) {
        if let Some(map) = self.0.take() {
            let mut left = Left { map: self, entries: map.into_entries().into_inner() };
            left.entries.retain(|(run, held)| keep(&as_range(run), &held.0));
        }
    }

    /// Gives each member of a set of either kind a value, of which each run gets a copy. As many calls of [`insert`](Self::insert) as the set
    /// has runs, or where these would move more entries, one walk over all entries, which copies their values.
    ///
    /// ```
    /// # use intervallum::{IntervalMap, IntervalSet};
    /// let mut a = IntervalMap::from([(1..=9, "a")]);
    /// a.insert_set(&IntervalSet::from([2..=3, 8..=12]), "b");
    /// assert_eq!(a, IntervalMap::from([(1..=1, "a"), (2..=3, "b"), (4..=7, "a"), (8..=12, "b")]));
    /// ```
    #[doc = contract!(over IntervalMap "extend")]
    pub fn insert_set(&mut self, set: &impl AnySet<T>, value: V) {
        self.write_all(set.list().runs().iter().map(|run| (*run, Held(value.clone()))).collect());
    }

    /// Removes the values of the members of a set of either kind, and returns true exactly when some of them had one. As many calls of
    /// [`remove`](Self::remove) as the set has runs, or where these would move more entries, one walk over all entries, which copies their
    /// values.
    ///
    /// ```
    /// # use intervallum::{IntervalMap, IntervalSet};
    /// let mut a = IntervalMap::from([(1..=9, "a")]);
    /// let some = IntervalSet::from([2..=3, 8..=12]);
    /// assert!(a.remove_set(&some) && !a.remove_set(&some));
    /// assert_eq!(a, IntervalMap::from([(1..=1, "a"), (4..=7, "a")]));
    /// ```
    #[doc = contract!(over IntervalMap "without")]
    pub fn remove_set(&mut self, set: &impl AnySet<T>) -> bool {
        let list = set.list();
        let runs = list.runs();
        let had_some = runs.iter().any(|run| !self.met(*run).is_empty());
        match runs.first() {
            Some(first) if had_some && self.moves_little(runs.len(), first) => {
                runs.iter().for_each(|run| _ = self.remove(*run));
            }
            Some(_) if had_some => *self = self.without(set),
            _ => {}
        }
        had_some
    }

    /// Moves all values of another map into this one, which is empty then. Where both have one, that of the other map wins, as in a
    /// `BTreeMap`. As [`extend`](Extend::extend) of its entries.
    ///
    /// ```
    /// # use intervallum::IntervalMap;
    /// let (mut a, mut b) = (IntervalMap::from([(1..=5, "a")]), IntervalMap::from([(4..=9, "b")]));
    /// a.append(&mut b);
    /// assert_eq!((a, b.is_empty()), (IntervalMap::from([(1..=3, "a"), (4..=9, "b")]), true));
    /// ```
    #[doc = contract!(over IntervalMap "extend")]
    pub fn append(&mut self, other: &mut Self) {
        if self.is_empty() {
            mem::swap(self, other);
        } else if let Some(map) = other.0.take() {
            self.write_all(map.into_entries().into_inner());
        }
    }

    /// Removes the values of all numbers that are at least `number`, and returns them as a map of their own. `O(log n + k)` for the `k`
    /// entries that have such numbers, whose values are copied.
    ///
    /// ```
    /// # use intervallum::IntervalMap;
    /// let mut a = IntervalMap::from([(1..=5, "a"), (8..=9, "b")]);
    /// let upper = a.split_off(4);
    /// assert_eq!((a, upper), (IntervalMap::from([(1..=3, "a")]), IntervalMap::from([(4..=5, "a"), (8..=9, "b")])));
    /// ```
    #[doc = contract!(over IntervalMap "cut_to")]
    #[must_use = "the map that is split off has values of its own"]
    pub fn split_off(&mut self, number: T) -> Self {
        let upper = self.cut_to(number..);
        self.remove(number..);
        upper
    }

    /// Inserts every range with its value that an iterator yields, as `extend` does, or returns `None` and changes nothing if some
    /// number is outside the limits.
    ///
    /// ```
    /// # use intervallum::IntervalMap;
    /// let mut a = IntervalMap::from([(1..=9u8, "a")]);
    /// assert_eq!(a.checked_extend([(2..=3, "b"), (9..=255, "c")]), None);
    /// assert_eq!((a.checked_extend([(2..=3, "b"), (3..=4, "c")]), a.get(3)), (Some(()), Some(&"c")));
    /// ```
    #[doc = contract!(IntervalMap "extend")]
    #[must_use = "`None` says that no value was written"]
    pub fn checked_extend<P: Piece<T>>(&mut self, entries: impl IntoIterator<Item = (P, V)>) -> Option<()> {
        self.write_all(entries_of(entries)?);
        Some(())
    }

    /// Writes a list of entries, of which later ones win: one by one, or by a walk over both where that moves less.
    fn write_all(&mut self, entries: Vec<Entry<T, V>>) {
        let entries = swept(entries);
        match entries.first() {
            Some((first, _)) if !self.moves_little(entries.len(), first) => {
                *self = self.merge(&Self::of_ascending(entries), |_, later| later.clone());
            }
            _ => memory(self.edited().extend(entries.into())),
        }
    }

    /// Tells whether so many edits one by one, of numbers from a run on, move little beside a walk over all entries.
    fn moves_little(&self, edits: usize, first: &Interval<T>) -> bool {
        let moved = self.met(Interval::new(first.lower(), T::max_value())).len();
        // an edit moves half of them, which takes about a twentieth of the time to copy these
        edits.saturating_mul(moved) / 40 <= self.interval_count().saturating_add(edits)
    }
}

/// Ascending entries that a map gets back once some are taken out, also if that panics.
struct Left<'a, T: Width, V: Clone + Eq> {
    map: &'a mut IntervalMap<T, V>,
    entries: Vec<Entry<T, V>>,
}

impl<T: Width, V: Clone + Eq> Drop for Left<'_, T, V> {
    fn drop(&mut self) {
        *self.map = IntervalMap::of_ascending(mem::take(&mut self.entries));
    }
}

/// Inserts every range with its value, one after the other: later ones win. All numbers must be within the limits; after a panic
/// that says so, the map is unchanged. `O(k log k)` for `k` ranges, or `O(k)` if they ascend; and as many calls of
/// [`insert`](IntervalMap::insert), or where these would move more entries, one walk over all entries, which copies their values.
impl<T: Width, V: Clone + Eq, P: Piece<T>> Extend<(P, V)> for IntervalMap<T, V> {
    #[track_caller]
    fn extend<I: IntoIterator<Item = (P, V)>>(&mut self, entries: I) {
        self.write_all(gathered("extend", entries));
    }
}
