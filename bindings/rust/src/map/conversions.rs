//! Traits of std that make, copy, compare, write and hash maps, and iterate over them.
use super::IntervalMap;
use super::iterators::{IntoIter, Iter};
use crate::proved::width::Width;
use crate::set::Piece;
use crate::set::conditions::{broken, memory, unless_broken, written};
use alloc::vec::Vec;
use core::cmp::Ordering;
use core::fmt::{self, Debug};
use core::hash::{Hash, Hasher};
use core::ops::{Index, RangeInclusive};

/// Makes the map of every range with its value: later ones win. All numbers must be within the limits.
impl<T: Width, V: Clone + Eq, P: Piece<T>, const N: usize> From<[(P, V); N]> for IntervalMap<T, V> {
    #[track_caller]
    fn from(entries: [(P, V); N]) -> Self {
        Self::gathered("from", entries)
    }
}

/// Makes the map of every range with its value: later ones win. All numbers must be within the limits.
impl<T: Width, V: Clone + Eq, P: Piece<T>> From<Vec<(P, V)>> for IntervalMap<T, V> {
    #[track_caller]
    fn from(entries: Vec<(P, V)>) -> Self {
        Self::gathered("from", entries)
    }
}

/// Makes the map of every range with its value: later ones win. All numbers must be within the limits. `O(k log k)` for `k` ranges: one sort
/// and one sweep, and `O(k)` if they ascend. A value is copied only where later ranges leave parts of its range on both sides.
impl<T: Width, V: Clone + Eq, P: Piece<T>> FromIterator<(P, V)> for IntervalMap<T, V> {
    fn from_iter<I: IntoIterator<Item = (P, V)>>(entries: I) -> Self {
        Self::gathered("from_iter", entries)
    }
}

/// Makes the map in which no number has a value.
impl<T: Width, V: Clone + Eq> Default for IntervalMap<T, V> {
    fn default() -> Self {
        Self::empty()
    }
}

/// Copies each value.
impl<T: Width, V: Clone + Eq> Clone for IntervalMap<T, V> {
    fn clone(&self) -> Self {
        Self(self.0.as_ref().map(|map| memory(map.try_clone())))
    }
}

/// Two maps are equal exactly when each number has equal values in both, or none.
impl<T: Width, V: Clone + Eq> PartialEq for IntervalMap<T, V> {
    fn eq(&self, other: &Self) -> bool {
        match (&self.0, &other.0) {
            (Some(a), Some(b)) => a == b,
            _ => self.is_empty() && other.is_empty(),
        }
    }
}

impl<T: Width, V: Clone + Eq> Eq for IntervalMap<T, V> {}

impl<T: Width, V: Clone + Ord> PartialOrd for IntervalMap<T, V> {
    fn partial_cmp(&self, other: &Self) -> Option<Ordering> {
        Some(self.cmp(other))
    }
}

/// Orders maps by their numbers and the values of these, one after another, as a `BTreeMap` of single numbers. Goes by entries.
///
/// ```
/// # use intervallum::IntervalMap;
/// let [a, b, c] = [[(1..=5, 'a')], [(1..=6, 'a')], [(1..=1, 'b')]].map(IntervalMap::from);
/// assert!(a < b && b < c && IntervalMap::new() < a);
/// ```
impl<T: Width, V: Clone + Ord> Ord for IntervalMap<T, V> {
    fn cmp(&self, other: &Self) -> Ordering {
        order(self.iter(), other.iter())
    }
}

/// Compares numbers and values of entries as lists.
fn order<T: Width, V: Clone + Ord>(mut a: Iter<'_, T, V>, mut b: Iter<'_, T, V>) -> Ordering {
    loop {
        let ((p, v), (q, w)) = match (a.next(), b.next()) {
            (None, None) => return Ordering::Equal,
            (None, Some(_)) => return Ordering::Less,
            (Some(_), None) => return Ordering::Greater,
            (Some(p), Some(q)) => (p, q),
        };
        let begun = p.start().cmp(q.start()).then_with(|| v.cmp(w));
        match (begun, p.end().cmp(q.end())) {
            (Ordering::Equal, Ordering::Equal) => {}
            (Ordering::Equal, Ordering::Less) => return after(&p, v, a.next()),
            (Ordering::Equal, Ordering::Greater) => return after(&q, w, b.next()).reverse(),
            (unequal, _) => return unequal,
        }
    }
}

/// How a list goes on behind a run, beside another in which the number behind the run has the value of the run.
fn after<T: Width, V: Ord>(run: &RangeInclusive<T>, value: &V, next: Option<(RangeInclusive<T>, &V)>) -> Ordering {
    match next {
        None => Ordering::Less,
        Some((next, other)) if run.end().number() + 1 == next.start().number() => other.cmp(value),
        Some(_) => Ordering::Greater,
    }
}

/// The value of a number, which must have one.
///
/// ```
/// # use intervallum::IntervalMap;
/// let a = IntervalMap::from([(1..=5, "a")]);
/// assert_eq!(a[3], "a");
/// ```
impl<T: Width, V: Clone + Eq> Index<T> for IntervalMap<T, V> {
    type Output = V;

    #[track_caller]
    fn index(&self, number: T) -> &V {
        unless_broken!(IntervalMap: self.get(number), "the number must have a value", "index({})", written(number))
    }
}

/// Goes by entries.
impl<T: Width + Hash, V: Clone + Eq + Hash> Hash for IntervalMap<T, V> {
    fn hash<H: Hasher>(&self, state: &mut H) {
        state.write_usize(self.interval_count());
        self.iter().for_each(|(run, value)| (run.into_inner(), value).hash(state));
    }
}

/// Writes the entries, as in `{1..=5: "anna", 8..=9: "bela"}`.
impl<T: Width + Debug, V: Clone + Eq + Debug> Debug for IntervalMap<T, V> {
    fn fmt(&self, f: &mut fmt::Formatter<'_>) -> fmt::Result {
        f.debug_map().entries(self.iter()).finish()
    }
}

/// Iterates over the entries, in ascending order. Copies no value.
impl<T: Width, V: Clone + Eq> IntoIterator for IntervalMap<T, V> {
    type Item = (RangeInclusive<T>, V);

    type IntoIter = IntoIter<T, V>;

    fn into_iter(self) -> IntoIter<T, V> {
        IntoIter::of(self)
    }
}

/// Iterates over the entries, in ascending order.
impl<'a, T: Width, V: Clone + Eq> IntoIterator for &'a IntervalMap<T, V> {
    type Item = (RangeInclusive<T>, &'a V);

    type IntoIter = Iter<'a, T, V>;

    fn into_iter(self) -> Iter<'a, T, V> {
        self.iter()
    }
}
