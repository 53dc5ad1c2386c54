//! Maps without entries, and from entries.
use super::IntervalMap;
use super::below::{Entry, Held, Proved};
use super::sweep::swept;
use crate::proved::{Global, width::Width};
use crate::set::Piece;
use crate::set::conditions::{contract, memory};
use crate::set::making::interval_of;
use alloc::vec::Vec;

/// Maps without entries, and from entries.
impl<T: Width, V: Clone + Eq> IntervalMap<T, V> {
    /// Returns the map in which no number has a value. Does not allocate.
    ///
    /// ```
    /// # use intervallum::IntervalMap;
    /// static NONE: IntervalMap<u32, &str> = IntervalMap::empty();
    /// assert!(NONE.is_empty() && NONE.get(1).is_none());
    /// ```
    #[doc = contract!(over IntervalMap "empty")]
    #[must_use]
    pub const fn empty() -> Self {
        Self(None)
    }

    /// Returns [`empty`](Self::empty), as `new` of a map of std does.
    ///
    /// ```
    /// # use intervallum::IntervalMap;
    /// let mut a = IntervalMap::new();
    /// a.insert(1..=5, "a");
    /// assert_eq!(a, IntervalMap::from([(1..=5, "a")]));
    /// ```
    #[doc = contract!(of "empty")]
    #[must_use]
    pub const fn new() -> Self {
        Self::empty()
    }

    /// Returns the map of every range with its value that an iterator yields, as `collect` does, or `None` if some number is
    /// outside the limits. `O(k log k)` for `k` ranges, and `O(k)` if they ascend.
    ///
    /// ```
    /// # use intervallum::IntervalMap;
    /// let a = IntervalMap::checked_from_iter([(1..=5u8, 'a'), (4..=7, 'b')]);
    /// assert_eq!(a, Some(IntervalMap::from([(1..=3, 'a'), (4..=7, 'b')])));
    /// assert_eq!(IntervalMap::checked_from_iter([(1..=5u8, 'a'), (9..=255, 'b')]), None);
    /// ```
    #[doc = contract!(over IntervalMap "from_entries")]
    #[must_use]
    pub fn checked_from_iter<P: Piece<T>>(entries: impl IntoIterator<Item = (P, V)>) -> Option<Self> {
        Some(Self::of_list(entries_of(entries)?))
    }

    /// Returns the map of every range with its value, for the call of this name.
    #[track_caller]
    pub(super) fn gathered<P: Piece<T>>(call: &str, entries: impl IntoIterator<Item = (P, V)>) -> Self {
        Self::of_list(gathered(call, entries))
    }

    /// Returns the map of a list of entries in any order, of which later ones win.
    pub(super) fn of_list(entries: Vec<Entry<T, V>>) -> Self {
        Self::of_ascending(swept(entries))
    }

    /// Returns the map of a list of ascending entries without common numbers, by `from_entries`.
    pub(super) fn of_ascending(entries: Vec<Entry<T, V>>) -> Self {
        Self(Some(memory(Proved::from_entries(Global, entries.into()))))
    }
}

/// Returns the intervals of ranges with their values, or `None` if some number is outside the limits.
pub(super) fn entries_of<T: Width, V, P: Piece<T>>(
    entries: impl IntoIterator<Item = (P, V)>,
) -> Option<Vec<Entry<T, V>>> {
    entries.into_iter().map(|(range, value)| Some((range.interval()?, Held(value)))).collect()
}

/// Returns the intervals of ranges with their values. Panics if some number is outside the limits.
// with a closure in the place of the loop, the place of the panic would be in this crate and not in the caller's
#[track_caller]
pub(super) fn gathered<T: Width, V, P: Piece<T>>(
    call: &str,
    entries: impl IntoIterator<Item = (P, V)>,
) -> Vec<Entry<T, V>> {
    let mut all = Vec::new();
    for (range, value) in entries {
        all.push((interval_of("IntervalMap", call, &range), Held(value)));
    }
    all
}
