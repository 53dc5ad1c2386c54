//! Iterators over entries and values.
use super::IntervalMap;
use super::below::{Entry, Held};
use super::reads::shown;
use crate::proved::ops::Intersection as _;
use crate::proved::{Interval, width::Width};
use crate::set::reads::as_range;
use alloc::vec::{self, Vec};
use core::fmt::{self, Debug};
use core::iter::FusedIterator;
use core::ops::RangeInclusive;
use core::slice;

/// An iterator over entries of an [`IntervalMap`], in ascending order: the run of each, and its value.
#[must_use = "iterators do nothing unless they are consumed"]
pub struct Iter<'a, T: Width, V>(pub(super) slice::Iter<'a, Entry<T, V>>);

/// An iterator over the parts of entries of an [`IntervalMap`] that lie in a range, in ascending order: the run of each part, and its value.
#[must_use = "iterators do nothing unless they are consumed"]
pub struct IterWithin<'a, T: Width, V> {
    pub(super) left: slice::Iter<'a, Entry<T, V>>,
    pub(super) window: Interval<T>,
}

/// An iterator over the values of an [`IntervalMap`], in ascending order of their numbers.
#[must_use = "iterators do nothing unless they are consumed"]
pub struct Values<'a, T: Width, V>(pub(super) slice::Iter<'a, Entry<T, V>>);

/// An iterator over the entries of a map that is consumed, in ascending order. Copies no value.
#[must_use = "iterators do nothing unless they are consumed"]
pub struct IntoIter<T: Width, V>(vec::IntoIter<Entry<T, V>>);

fn entry<T: Width, V>((run, held): &Entry<T, V>) -> (RangeInclusive<T>, &V) {
    shown((*run, held))
}

fn value<T: Width, V>(entry: &Entry<T, V>) -> &V {
    &entry.1.0
}

macro_rules! over_entries {
    ($($Iter:ident yields $item:ty, $of:ident;)*) => {$(
        impl<T: Width, V> Clone for $Iter<'_, T, V> {
            fn clone(&self) -> Self {
                Self(self.0.clone())
            }
        }

        impl<'a, T: Width, V> Iterator for $Iter<'a, T, V> {
            type Item = $item;

            #[inline]
            fn next(&mut self) -> Option<$item> {
                self.0.next().map($of)
            }

            fn size_hint(&self) -> (usize, Option<usize>) {
                self.0.size_hint()
            }

            fn count(self) -> usize {
                self.0.len()
            }

            fn nth(&mut self, n: usize) -> Option<$item> {
                self.0.nth(n).map($of)
            }

            fn last(mut self) -> Option<$item> {
                self.next_back()
            }

            fn fold<A, F: FnMut(A, $item) -> A>(self, begin: A, mut step: F) -> A {
                self.0.fold(begin, |all, next| step(all, $of(next)))
            }
        }

        impl<'a, T: Width, V> DoubleEndedIterator for $Iter<'a, T, V> {
            #[inline]
            fn next_back(&mut self) -> Option<$item> {
                self.0.next_back().map($of)
            }

            fn nth_back(&mut self, n: usize) -> Option<$item> {
                self.0.nth_back(n).map($of)
            }
        }

        impl<T: Width, V> ExactSizeIterator for $Iter<'_, T, V> {}

        impl<T: Width, V> FusedIterator for $Iter<'_, T, V> {}
    )*};
}

over_entries! {
    Iter yields (RangeInclusive<T>, &'a V), entry;
    Values yields &'a V, value;
}

impl<'a, T: Width, V> IterWithin<'a, T, V> {
    /// The part of an entry in the range.
    fn part(&self, (run, held): &'a Entry<T, V>) -> (RangeInclusive<T>, &'a V) {
        shown((run.intersection(&self.window), held))
    }
}

impl<T: Width, V> Clone for IterWithin<'_, T, V> {
    fn clone(&self) -> Self {
        IterWithin { left: self.left.clone(), window: self.window }
    }
}

impl<'a, T: Width, V> Iterator for IterWithin<'a, T, V> {
    type Item = (RangeInclusive<T>, &'a V);

    #[inline]
    fn next(&mut self) -> Option<Self::Item> {
        self.left.next().map(|entry| self.part(entry))
    }

    fn size_hint(&self) -> (usize, Option<usize>) {
        self.left.size_hint()
    }

    fn count(self) -> usize {
        self.left.len()
    }

    fn nth(&mut self, n: usize) -> Option<Self::Item> {
        self.left.nth(n).map(|entry| self.part(entry))
    }

    fn last(mut self) -> Option<Self::Item> {
        self.next_back()
    }
}

impl<T: Width, V> DoubleEndedIterator for IterWithin<'_, T, V> {
    #[inline]
    fn next_back(&mut self) -> Option<Self::Item> {
        self.left.next_back().map(|entry| self.part(entry))
    }

    fn nth_back(&mut self, n: usize) -> Option<Self::Item> {
        self.left.nth_back(n).map(|entry| self.part(entry))
    }
}

impl<T: Width, V> ExactSizeIterator for IterWithin<'_, T, V> {}

impl<T: Width, V> FusedIterator for IterWithin<'_, T, V> {}

/// Writes the parts that are left.
impl<T: Width + Debug, V: Debug> Debug for IterWithin<'_, T, V> {
    fn fmt(&self, f: &mut fmt::Formatter<'_>) -> fmt::Result {
        f.write_str("IterWithin ")?;
        f.debug_map().entries(self.clone()).finish()
    }
}

/// Writes the entries that are left.
impl<T: Width + Debug, V: Debug> Debug for Iter<'_, T, V> {
    fn fmt(&self, f: &mut fmt::Formatter<'_>) -> fmt::Result {
        f.write_str("Iter ")?;
        f.debug_map().entries(self.clone()).finish()
    }
}

/// Writes the values that are left.
impl<T: Width, V: Debug> Debug for Values<'_, T, V> {
    fn fmt(&self, f: &mut fmt::Formatter<'_>) -> fmt::Result {
        f.write_str("Values ")?;
        f.debug_list().entries(self.clone()).finish()
    }
}

fn owned<T: Width, V>((run, held): Entry<T, V>) -> (RangeInclusive<T>, V) {
    (as_range(&run), held.0)
}

impl<T: Width, V: Clone + Eq> IntoIter<T, V> {
    /// The entries of a map.
    pub(super) fn of(map: IntervalMap<T, V>) -> Self {
        Self(map.0.map_or_else(Vec::new, |map| map.into_entries().into_inner()).into_iter())
    }
}

impl<T: Width, V> IntoIter<T, V> {
    /// The entries that are left.
    fn left(&self) -> Iter<'_, T, V> {
        Iter(self.0.as_slice().iter())
    }
}

impl<T: Width, V: Clone> Clone for IntoIter<T, V> {
    fn clone(&self) -> Self {
        let entries: Vec<_> = self.0.as_slice().iter().map(|(run, held)| (*run, Held(held.0.clone()))).collect();
        Self(entries.into_iter())
    }
}

impl<T: Width, V> Iterator for IntoIter<T, V> {
    type Item = (RangeInclusive<T>, V);

    #[inline]
    fn next(&mut self) -> Option<(RangeInclusive<T>, V)> {
        self.0.next().map(owned)
    }

    fn size_hint(&self) -> (usize, Option<usize>) {
        self.0.size_hint()
    }

    fn count(self) -> usize {
        self.0.len()
    }

    fn nth(&mut self, n: usize) -> Option<(RangeInclusive<T>, V)> {
        self.0.nth(n).map(owned)
    }

    fn last(mut self) -> Option<(RangeInclusive<T>, V)> {
        self.next_back()
    }
}

impl<T: Width, V> DoubleEndedIterator for IntoIter<T, V> {
    #[inline]
    fn next_back(&mut self) -> Option<(RangeInclusive<T>, V)> {
        self.0.next_back().map(owned)
    }

    fn nth_back(&mut self, n: usize) -> Option<(RangeInclusive<T>, V)> {
        self.0.nth_back(n).map(owned)
    }
}

impl<T: Width, V> ExactSizeIterator for IntoIter<T, V> {}

impl<T: Width, V> FusedIterator for IntoIter<T, V> {}

/// Writes the entries that are left.
impl<T: Width + Debug, V: Debug> Debug for IntoIter<T, V> {
    fn fmt(&self, f: &mut fmt::Formatter<'_>) -> fmt::Result {
        f.write_str("IntoIter ")?;
        f.debug_map().entries(self.left()).finish()
    }
}
