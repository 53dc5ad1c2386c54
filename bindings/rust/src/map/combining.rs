//! Maps from maps.
use super::IntervalMap;
use super::below::Held;
use crate::proved::width::Width;
use crate::set::conditions::{contract, memory};
use crate::set::{AnySet, Piece};
use alloc::vec::Vec;
use core::cell::RefCell;

/// Maps from a map, and from two.
impl<T: Width, V: Clone + Eq> IntervalMap<T, V> {
    /// Returns what the map has at the numbers of a range. `O(log n + k)` for the `k` entries that have some of them, whose values are
    /// copied.
    ///
    /// ```
    /// # use intervallum::IntervalMap;
    /// let a = IntervalMap::from([(1..=5, "a"), (8..=9, "b")]);
    /// assert_eq!(a.cut_to(4..9), IntervalMap::from([(4..=5, "a"), (8..=8, "b")]));
    /// ```
    #[doc = contract!(IntervalMap "cut_to")]
    #[must_use]
    pub fn cut_to(&self, range: impl Piece<T>) -> Self {
        Self(Some(memory(self.asked(|map| map.cut_to(range.clamped())))))
    }

    /// Returns what the map has at the members of a set of either kind. `O(n + m)`, and a copy of the runs of a `PagedSet`; the value of
    /// an entry is copied for each of its parts.
    ///
    /// ```
    /// # use intervallum::{IntervalMap, IntervalSet};
    /// let a = IntervalMap::from([(1..=5, "a"), (8..=9, "b")]);
    /// let some = IntervalSet::from([2..=2, 5..=8]);
    /// assert_eq!(a.restrict_to(&some), IntervalMap::from([(2..=2, "a"), (5..=5, "a"), (8..=8, "b")]));
    /// assert_eq!(a.without(&some), IntervalMap::from([(1..=1, "a"), (3..=4, "a"), (9..=9, "b")]));
    /// ```
    #[doc = contract!(IntervalMap "restrict_to")]
    #[must_use]
    pub fn restrict_to(&self, set: &impl AnySet<T>) -> Self {
        Self(Some(memory(self.asked(|map| map.restrict_to(&set.list())))))
    }

    /// Returns what the map has at the numbers that are no members of a set of either kind, and takes as long as
    /// [`restrict_to`](Self::restrict_to).
    ///
    /// ```
    /// # use intervallum::{IntervalMap, PagedSet};
    /// let a = IntervalMap::from([(1..=5, "a"), (8..=9, "b")]);
    /// assert_eq!(a.without(&PagedSet::from(4..9)), IntervalMap::from([(1..=3, "a"), (9..=9, "b")]));
    /// ```
    #[doc = contract!(IntervalMap "without")]
    #[must_use]
    pub fn without(&self, set: &impl AnySet<T>) -> Self {
        Self(Some(memory(self.asked(|map| map.without(&set.list())))))
    }

    /// Returns the values of both maps: a number with a value in one of them alone has this, and a number with a value in each has
    /// what a function returns for the two, that of this map first. The function is asked in ascending order, once for each part
    /// that two entries have in common. `O(n + m)`, with copies of the other values.
    ///
    /// ```
    /// # use intervallum::IntervalMap;
    /// let (a, b) = (IntervalMap::from([(1..=5, 10)]), IntervalMap::from([(4..=9, 3)]));
    /// let sums = a.merge(&b, |x, y| x + y);
    /// assert_eq!(sums.iter().collect::<Vec<_>>(), [(1..=3, &10), (4..=5, &13), (6..=9, &3)]);
    /// ```
    #[doc = contract!(IntervalMap "merge")]
    #[must_use]
    pub fn merge(&self, other: &Self, both: impl FnMut(&V, &V) -> V) -> Self {
        // the proved map asks a function that changes nothing
        let both = RefCell::new(both);
        let made = |v: &Held<V>, w: &Held<V>| Ok(Held((both.borrow_mut())(&v.0, &w.0)));
        Self(Some(memory(self.asked(|map| other.asked(|other| map.merge(other, made))))))
    }

    /// Returns the values of all maps: a number that one map has alone has its value, and a number of several has what a function makes of
    /// theirs, two at a time. It is to be associative, as `+` or a union: neighbours in the order of the maps are joined first, in a
    /// tree. `O(n log k)` for `k` maps of `n` entries in all, with copies of the values.
    ///
    /// ```
    /// # use intervallum::IntervalMap;
    /// let [a, b, c] = [[(1..=5, 1)], [(4..=9, 1)], [(5..=20, 1)]].map(IntervalMap::from);
    /// let counts = IntervalMap::merge_of([&a, &b, &c], |x, y| x + y);
    /// assert_eq!(counts, IntervalMap::from([(1..=3, 1), (4..=4, 2), (5..=5, 3), (6..=9, 2), (10..=20, 1)]));
    /// ```
    #[doc = contract!(over IntervalMap "merge")]
    #[must_use]
    pub fn merge_of<'a>(maps: impl IntoIterator<Item = &'a Self>, mut both: impl FnMut(&V, &V) -> V) -> Self
    where
        T: 'a,
        V: 'a,
    {
        merged(&maps.into_iter().collect::<Vec<_>>(), &mut both)
    }
}

/// The values of maps, of which each half is merged first.
fn merged<T: Width, V: Clone + Eq, F: FnMut(&V, &V) -> V>(
    maps: &[&IntervalMap<T, V>],
    both: &mut F,
) -> IntervalMap<T, V> {
    match maps {
        [] => IntervalMap::empty(),
        [one] => (*one).clone(),
        [one, other] => one.merge(other, both),
        _ => {
            let (first, second) = maps.split_at(maps.len() / 2);
            let (first, second) = (merged(first, both), merged(second, both));
            first.merge(&second, both)
        }
    }
}
