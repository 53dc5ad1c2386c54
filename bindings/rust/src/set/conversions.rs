//! Traits of std that make, copy, compare and hash sets.
use super::conditions::memory;
use super::making::interval_of;
use super::{IntervalSet, PagedSet, Pieces};
use crate::proved::ops::Cardinality as _;
use crate::proved::width::Width;
use crate::proved::{self, Interval, ivl_paged};
use crate::rattle::vec::arrays_of_one;
use alloc::vec::Vec;
use core::cmp::Ordering;
use core::hash::{Hash, Hasher};
use core::ops::{Bound, Range, RangeFrom, RangeFull, RangeInclusive, RangeTo, RangeToInclusive};

macro_rules! from_pieces {
    ($Set:ident: $($piece:ty),*) => {$(
        /// Makes the set of the numbers of a range. All must be within the limits.
        impl<T: Width> From<$piece> for $Set<T> {
            #[track_caller]
            fn from(piece: $piece) -> Self {
                Self::of_interval(interval_of(stringify!($Set), "from", &piece))
            }
        }
    )*};
}

macro_rules! conversions {
    ($Set:ident) => {
        from_pieces!($Set: Range<T>, RangeInclusive<T>, RangeFrom<T>, RangeTo<T>, RangeToInclusive<T>, RangeFull, (T, T),
            (Bound<T>, Bound<T>), &Range<T>, &RangeInclusive<T>, Interval<T>);

        /// Makes the set of every piece: values, ranges, pairs or sets. All numbers must be within the limits.
        impl<T: Width, P: Pieces<T>, const N: usize> From<[P; N]> for $Set<T> {
            #[track_caller]
            fn from(pieces: [P; N]) -> Self {
                Self::gathered("from", pieces)
            }
        }

        /// Makes the set of every piece: values, ranges, pairs or sets. All numbers must be within the limits.
        impl<T: Width, P: Pieces<T>> From<Vec<P>> for $Set<T> {
            #[track_caller]
            fn from(pieces: Vec<P>) -> Self {
                Self::gathered("from", pieces)
            }
        }

        /// Makes the set of every piece: values, ranges, pairs or sets. All numbers must be within the limits.
        impl<'a, T: Width, P> From<&'a [P]> for $Set<T>
        where
            &'a P: Pieces<T>,
        {
            #[track_caller]
            fn from(pieces: &'a [P]) -> Self {
                Self::gathered("from", pieces)
            }
        }

        /// Makes the empty set.
        impl<T: Width> Default for $Set<T> {
            fn default() -> Self {
                Self::empty()
            }
        }

        impl<T: Width> PartialEq for $Set<T> {
            fn eq(&self, other: &Self) -> bool {
                match (&self.0, &other.0) {
                    (Some(a), Some(b)) => a == b,
                    _ => self.is_empty() && other.is_empty(),
                }
            }
        }

        impl<T: Width> Eq for $Set<T> {}

        impl<T: Width> PartialOrd for $Set<T> {
            fn partial_cmp(&self, other: &Self) -> Option<Ordering> {
                Some(self.cmp(other))
            }
        }

        /// Orders sets by their members, one after another, as a `BTreeSet` does. Goes by runs.
        impl<T: Width> Ord for $Set<T> {
            fn cmp(&self, other: &Self) -> Ordering {
                order(self.runs(), other.runs())
            }
        }

        impl<T: Width + Hash> Hash for $Set<T> {
            fn hash<H: Hasher>(&self, state: &mut H) {
                state.write_usize(self.interval_count());
                self.runs().for_each(|run| run.into_inner().hash(state));
            }
        }
    };
}

conversions!(IntervalSet);
conversions!(PagedSet);

impl<T: Width> Clone for IntervalSet<T> {
    // as `try_clone` does it, but for an allocation that aborts, which takes a tenth less than one that may fail
    fn clone(&self) -> Self {
        Self(self.0.as_ref().map(|set| {
            let runs: Vec<_> = arrays_of_one(set.runs()).collect();
            proved::IntervalSet::of_runs(runs.into_flattened().into(), set.size())
        }))
    }

    /// Makes the set equal to another, in the memory that it has where that suffices.
    fn clone_from(&mut self, source: &Self) {
        match (&mut self.0, &source.0) {
            (Some(set), Some(other)) => memory(set.try_clone_from(other)),
            (Some(set), None) => set.clear(),
            (None, _) => *self = source.clone(),
        }
    }
}

impl<T: Width> Clone for PagedSet<T> {
    fn clone(&self) -> Self {
        Self(self.0.as_ref().map(|set| memory(set.try_clone())))
    }
}

/// Compares the numbers of runs as lists.
fn order<T: Width, R: Iterator<Item = RangeInclusive<T>>>(mut a: R, mut b: R) -> Ordering {
    loop {
        let (p, q) = match (a.next(), b.next()) {
            (None, None) => return Ordering::Equal,
            (None, Some(_)) => return Ordering::Less,
            (Some(_), None) => return Ordering::Greater,
            (Some(p), Some(q)) => (p.into_inner(), q.into_inner()),
        };
        if p != q {
            // where the one run ends, the other list has the next number, and the one a greater number or none
            return p.0.cmp(&q.0).then_with(|| match p.1 < q.1 {
                true => a.next().map_or(Ordering::Less, |_| Ordering::Greater),
                false => b.next().map_or(Ordering::Greater, |_| Ordering::Less),
            });
        }
    }
}

/// Copies the runs into pages. `O(n)`.
impl<T: Width> From<&IntervalSet<T>> for PagedSet<T> {
    fn from(set: &IntervalSet<T>) -> Self {
        Self(Some(memory(ivl_paged::PagedSet::of_set(&set.as_proved()))))
    }
}

/// Copies the runs into pages. `O(n)`.
impl<T: Width> From<IntervalSet<T>> for PagedSet<T> {
    fn from(set: IntervalSet<T>) -> Self {
        Self::from(&set)
    }
}

/// As [`to_set`](PagedSet::to_set).
impl<T: Width> From<&PagedSet<T>> for IntervalSet<T> {
    fn from(set: &PagedSet<T>) -> Self {
        set.to_set()
    }
}

/// As [`to_set`](PagedSet::to_set).
impl<T: Width> From<PagedSet<T>> for IntervalSet<T> {
    fn from(set: PagedSet<T>) -> Self {
        set.to_set()
    }
}
