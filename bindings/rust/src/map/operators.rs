//! Operators of maps, with maps and with sets.
use super::IntervalMap;
use crate::proved::width::Width;
use crate::set::AnySet;
use core::ops::{BitAnd, BitOr};

/// What the map has at the members of a set of either kind, as [`restrict_to`](IntervalMap::restrict_to).
///
/// ```
/// # use intervallum::{IntervalMap, IntervalSet};
/// let a = IntervalMap::from([(1..=5, "a"), (8..=9, "b")]);
/// assert_eq!(&a & &IntervalSet::from(4..9), a.cut_to(4..9));
/// ```
impl<T: Width, V: Clone + Eq, S: AnySet<T>> BitAnd<&S> for &IntervalMap<T, V> {
    type Output = IntervalMap<T, V>;

    fn bitand(self, set: &S) -> IntervalMap<T, V> {
        self.restrict_to(set)
    }
}

/// The values of both maps. Where both have one, that of the second wins, as a later entry does in `collect`. `O(n + m)`, with copies of
/// the values: [`append`](IntervalMap::append) changes the first map.
///
/// ```
/// # use intervallum::IntervalMap;
/// let (a, b) = (IntervalMap::from([(1..=5, "a")]), IntervalMap::from([(4..=9, "b")]));
/// assert_eq!(&a | &b, IntervalMap::from([(1..=3, "a"), (4..=9, "b")]));
/// ```
impl<T: Width, V: Clone + Eq> BitOr for &IntervalMap<T, V> {
    type Output = IntervalMap<T, V>;

    fn bitor(self, other: Self) -> IntervalMap<T, V> {
        self.merge(other, |_, later| later.clone())
    }
}
