//! Iterators over runs and members, and sets from iterators.
use super::reads::as_range;
use super::{IntervalSet, PagedSet, Pieces};
use crate::Full;
use crate::proved::Interval;
use crate::proved::ivl_paged::{PagedSet as ProvedPagedSet, paged_set};
use crate::proved::ops::{Bounded, IsEmpty};
use crate::proved::width::{SizeNumber, Width};
use core::fmt::{self, Debug};
use core::iter::{self, FusedIterator};
use core::ops::RangeInclusive;
use core::slice;

/// An iterator over the runs of an [`IntervalSet`], in ascending order.
#[must_use = "iterators do nothing unless they are consumed"]
pub struct Runs<'a, T: Width>(pub(super) slice::Iter<'a, Interval<T>>);

/// An iterator over the runs of a [`PagedSet`], in ascending order.
#[derive(Clone)]
#[must_use = "iterators do nothing unless they are consumed"]
pub struct PagedRuns<'a, T: Width> {
    runs: Option<paged_set::Runs<'a, T>>,
    left: usize,
}

/// An iterator over the runs of a [`PagedSet`] that overlap a range, in ascending order. Each step is `O(log n)`.
#[derive(Clone)]
#[must_use = "iterators do nothing unless they are consumed"]
pub struct PagedRunsWithin<'a, T: Width> {
    set: Option<&'a ProvedPagedSet<T>>,
    left: Option<(T, T)>,
}

/// An iterator over the runs of a set that is consumed, in ascending order.
#[derive(Clone)]
#[must_use = "iterators do nothing unless they are consumed"]
pub struct IntoRuns<T: Width> {
    set: IntervalSet<T>,
    first: usize,
    end: usize,
}

/// An iterator over the members in the runs that another yields, in ascending order.
///
/// `nth`, `count`, `last`, `fold` and the like go from run to run and not from member to member. `size_hint` adds up what is left,
/// run by run.
#[derive(Clone)]
#[must_use = "iterators do nothing unless they are consumed"]
pub struct Members<T, R> {
    first: Option<(T, T)>,
    between: R,
    last: Option<(T, T)>,
}

/// An iterator over the members of an [`IntervalSet`].
pub type Iter<'a, T> = Members<T, Runs<'a, T>>;

/// An iterator over the members of an [`IntervalSet`] that lie in a range.
pub type Range<'a, T> = Members<T, Runs<'a, T>>;

/// An iterator over the members of a [`PagedSet`].
pub type PagedIter<'a, T> = Members<T, PagedRuns<'a, T>>;

/// An iterator over the members of a [`PagedSet`] that lie in a range.
pub type PagedRange<'a, T> = Members<T, PagedRunsWithin<'a, T>>;

/// An iterator over the members of a set that is consumed.
pub type IntoIter<T> = Members<T, IntoRuns<T>>;

// Runs.

impl<T: Width> Clone for Runs<'_, T> {
    fn clone(&self) -> Self {
        Self(self.0.clone())
    }
}

impl<T: Width> Iterator for Runs<'_, T> {
    type Item = RangeInclusive<T>;

    #[inline]
    fn next(&mut self) -> Option<RangeInclusive<T>> {
        self.0.next().map(as_range)
    }

    fn size_hint(&self) -> (usize, Option<usize>) {
        self.0.size_hint()
    }

    fn count(self) -> usize {
        self.0.len()
    }

    fn nth(&mut self, n: usize) -> Option<RangeInclusive<T>> {
        self.0.nth(n).map(as_range)
    }

    fn last(mut self) -> Option<RangeInclusive<T>> {
        self.next_back()
    }

    fn fold<A, F: FnMut(A, RangeInclusive<T>) -> A>(self, begin: A, mut step: F) -> A {
        self.0.fold(begin, |all, run| step(all, as_range(run)))
    }
}

impl<T: Width> DoubleEndedIterator for Runs<'_, T> {
    #[inline]
    fn next_back(&mut self) -> Option<RangeInclusive<T>> {
        self.0.next_back().map(as_range)
    }

    fn nth_back(&mut self, n: usize) -> Option<RangeInclusive<T>> {
        self.0.nth_back(n).map(as_range)
    }
}

impl<T: Width> ExactSizeIterator for Runs<'_, T> {}

impl<'a, T: Width> PagedRuns<'a, T> {
    /// The runs of a set, or none.
    pub(super) fn of(set: Option<&'a ProvedPagedSet<T>>) -> Self {
        Self { runs: set.map(ProvedPagedSet::iter), left: set.map_or(0, ProvedPagedSet::interval_count) }
    }
}

impl<T: Width> Iterator for PagedRuns<'_, T> {
    type Item = RangeInclusive<T>;

    #[inline]
    fn next(&mut self) -> Option<RangeInclusive<T>> {
        let run = self.runs.as_mut()?.next()?;
        self.left -= 1;
        Some(as_range(&run))
    }

    fn size_hint(&self) -> (usize, Option<usize>) {
        (self.left, Some(self.left))
    }

    fn count(self) -> usize {
        self.left
    }

    fn last(mut self) -> Option<RangeInclusive<T>> {
        self.next_back()
    }
}

impl<T: Width> DoubleEndedIterator for PagedRuns<'_, T> {
    #[inline]
    fn next_back(&mut self) -> Option<RangeInclusive<T>> {
        let run = self.runs.as_mut()?.next_back()?;
        self.left -= 1;
        Some(as_range(&run))
    }
}

impl<T: Width> ExactSizeIterator for PagedRuns<'_, T> {}

impl<'a, T: Width> PagedRunsWithin<'a, T> {
    /// The runs of a set, if it is there, that overlap an interval.
    pub(super) fn of(set: Option<&'a ProvedPagedSet<T>>, interval: &Interval<T>) -> Self {
        Self { set, left: (!interval.is_empty()).then(|| (interval.lower(), interval.upper())) }
    }
}

impl<T: Width> Iterator for PagedRunsWithin<'_, T> {
    type Item = RangeInclusive<T>;

    fn next(&mut self) -> Option<RangeInclusive<T>> {
        let (set, (lower, upper)) = self.set.zip(self.left.take())?;
        let run = set.run_at(set.next_from(lower).filter(|least| *least <= upper)?)?;
        self.left = (run.upper() < upper).then(|| (after(run.upper()), upper));
        Some(as_range(&run))
    }

    fn last(mut self) -> Option<RangeInclusive<T>> {
        self.next_back()
    }
}

impl<T: Width> DoubleEndedIterator for PagedRunsWithin<'_, T> {
    fn next_back(&mut self) -> Option<RangeInclusive<T>> {
        let (set, (lower, upper)) = self.set.zip(self.left.take())?;
        let run = set.run_at(set.previous_to(upper).filter(|greatest| *greatest >= lower)?)?;
        self.left = (run.lower() > lower).then(|| (lower, before(run.lower())));
        Some(as_range(&run))
    }
}

impl<T: Width> IntoRuns<T> {
    /// The runs of a set.
    pub(super) fn of(set: IntervalSet<T>) -> Self {
        Self { first: 0, end: set.interval_count(), set }
    }

    /// The runs that are left.
    fn left(&self) -> Runs<'_, T> {
        Runs(self.set.intervals()[self.first..self.end].iter())
    }
}

impl<T: Width> Iterator for IntoRuns<T> {
    type Item = RangeInclusive<T>;

    #[inline]
    fn next(&mut self) -> Option<RangeInclusive<T>> {
        let run = self.left().next()?;
        self.first += 1;
        Some(run)
    }

    fn size_hint(&self) -> (usize, Option<usize>) {
        self.left().size_hint()
    }

    fn count(self) -> usize {
        self.end - self.first
    }

    fn nth(&mut self, n: usize) -> Option<RangeInclusive<T>> {
        self.first = self.end.min(self.first.saturating_add(n));
        self.next()
    }

    fn last(mut self) -> Option<RangeInclusive<T>> {
        self.next_back()
    }
}

impl<T: Width> DoubleEndedIterator for IntoRuns<T> {
    #[inline]
    fn next_back(&mut self) -> Option<RangeInclusive<T>> {
        let run = self.left().next_back()?;
        self.end -= 1;
        Some(run)
    }

    fn nth_back(&mut self, n: usize) -> Option<RangeInclusive<T>> {
        self.end = self.first.max(self.end.saturating_sub(n));
        self.next_back()
    }
}

impl<T: Width> ExactSizeIterator for IntoRuns<T> {}

macro_rules! runs_are_told {
    ($($Runs:ident),*) => {$(
        impl<T: Width> FusedIterator for $Runs<'_, T> {}

        /// Writes the runs that are left.
        impl<T: Width + Debug> Debug for $Runs<'_, T> {
            fn fmt(&self, f: &mut fmt::Formatter<'_>) -> fmt::Result {
                f.write_str(concat!(stringify!($Runs), " "))?;
                f.debug_list().entries(self.clone()).finish()
            }
        }
    )*};
}

runs_are_told!(Runs, PagedRuns, PagedRunsWithin);

impl<T: Width> FusedIterator for IntoRuns<T> {}

/// Writes the runs that are left.
impl<T: Width + Debug> Debug for IntoRuns<T> {
    fn fmt(&self, f: &mut fmt::Formatter<'_>) -> fmt::Result {
        f.write_str("IntoRuns ")?;
        f.debug_list().entries(self.left()).finish()
    }
}

// Members.

/// Returns the value whose number is greater by one. There must be one in the range.
#[inline]
pub(crate) fn after<T: Width>(value: T) -> T {
    value.add_in_range(T::one())
}

/// Returns the value whose number is less by one. There must be one in the range.
#[inline]
pub(crate) fn before<T: Width>(value: T) -> T {
    value.sub_in_range(T::one())
}

/// Returns how many numbers lie between two values, both included.
fn count_between<T: Width>((lower, upper): (T, T)) -> u128 {
    T::width(&lower, &upper).number()
}

/// Returns the value whose number is greater by so much. There must be one in the range.
fn value_at<T: Width>(value: T, steps: i128) -> T {
    T::from_number(value.number() + steps).expect("a number between two values of the range has a value")
}

/// Returns an iterator over the members of one run.
pub(super) fn members_of<T: Width>(run: RangeInclusive<T>) -> Members<T, iter::Empty<RangeInclusive<T>>> {
    Members { first: Some(run.into_inner()), between: iter::empty(), last: None }
}

impl<T: Width, R: DoubleEndedIterator<Item = RangeInclusive<T>>> Members<T, R> {
    /// The members in runs.
    pub(super) fn of(runs: R) -> Self {
        Self { first: None, between: runs, last: None }
    }

    /// The members that lie in an interval, of the runs that overlap it.
    pub(super) fn of_part(mut runs: R, interval: &Interval<T>) -> Self {
        let mut part = || {
            let cut =
                |run: RangeInclusive<T>| ((*run.start()).max(interval.lower()), (*run.end()).min(interval.upper()));
            [runs.next().map(cut), runs.next_back().map(cut)]
        };
        let [first, last] = part();
        Self { first, between: runs, last }
    }

    /// Takes the first run, or what is left of it.
    #[inline]
    fn take_first(&mut self) -> Option<(T, T)> {
        match self.first.take() {
            None => self.between.next().map(RangeInclusive::into_inner).or_else(|| self.last.take()),
            first => first,
        }
    }

    /// Takes the last run, or what is left of it.
    #[inline]
    fn take_last(&mut self) -> Option<(T, T)> {
        match self.last.take() {
            None => self.between.next_back().map(RangeInclusive::into_inner).or_else(|| self.first.take()),
            last => last,
        }
    }
}

impl<T: Width, R: DoubleEndedIterator<Item = RangeInclusive<T>> + Clone> Iterator for Members<T, R> {
    type Item = T;

    #[inline]
    fn next(&mut self) -> Option<T> {
        let (least, upper) = self.take_first()?;
        self.first = (least < upper).then(|| (after(least), upper));
        Some(least)
    }

    /// Adds up the runs that are left.
    fn size_hint(&self) -> (usize, Option<usize>) {
        let ends = self.first.into_iter().chain(self.last).map(count_between);
        let all = ends.chain(self.between.clone().map(|run| count_between(run.into_inner())));
        match usize::try_from(all.fold(0, u128::saturating_add)) {
            Ok(count) => (count, Some(count)),
            Err(_) => (usize::MAX, None),
        }
    }

    /// Adds up the runs. Returns `usize::MAX` if there are more.
    fn count(self) -> usize {
        self.size_hint().0
    }

    fn nth(&mut self, n: usize) -> Option<T> {
        let mut left = u128::try_from(n).unwrap_or(u128::MAX);
        while let Some((lower, upper)) = self.take_first() {
            let count = count_between((lower, upper));
            if left < count {
                let value = value_at(lower, i128::try_from(left).unwrap_or(i128::MAX));
                self.first = (value < upper).then(|| (after(value), upper));
                return Some(value);
            }
            left -= count;
        }
        None
    }

    fn last(mut self) -> Option<T> {
        self.next_back()
    }

    fn min(mut self) -> Option<T> {
        self.next()
    }

    fn max(mut self) -> Option<T> {
        self.next_back()
    }

    fn is_sorted(self) -> bool {
        true
    }

    fn fold<A, F: FnMut(A, T) -> A>(mut self, mut all: A, mut step: F) -> A {
        while let Some((mut value, upper)) = self.take_first() {
            while value < upper {
                all = step(all, value);
                value = after(value);
            }
            all = step(all, upper);
        }
        all
    }
}

impl<T: Width, R: DoubleEndedIterator<Item = RangeInclusive<T>> + Clone> DoubleEndedIterator for Members<T, R> {
    #[inline]
    fn next_back(&mut self) -> Option<T> {
        let (lower, greatest) = self.take_last()?;
        self.last = (lower < greatest).then(|| (lower, before(greatest)));
        Some(greatest)
    }

    fn nth_back(&mut self, n: usize) -> Option<T> {
        let mut left = u128::try_from(n).unwrap_or(u128::MAX);
        while let Some((lower, upper)) = self.take_last() {
            let count = count_between((lower, upper));
            if left < count {
                let value = value_at(upper, -i128::try_from(left).unwrap_or(i128::MAX));
                self.last = (lower < value).then(|| (lower, before(value)));
                return Some(value);
            }
            left -= count;
        }
        None
    }

    fn rfold<A, F: FnMut(A, T) -> A>(mut self, mut all: A, mut step: F) -> A {
        while let Some((lower, mut value)) = self.take_last() {
            while lower < value {
                all = step(all, value);
                value = before(value);
            }
            all = step(all, lower);
        }
        all
    }
}

impl<T: Width, R: DoubleEndedIterator<Item = RangeInclusive<T>> + Clone> FusedIterator for Members<T, R> {}

/// Writes the runs that are left.
impl<T: Width + Debug, R: DoubleEndedIterator<Item = RangeInclusive<T>> + Clone> Debug for Members<T, R> {
    fn fmt(&self, f: &mut fmt::Formatter<'_>) -> fmt::Result {
        let of_end = |end: Option<(T, T)>| end.map(|(lower, upper)| lower..=upper);
        f.write_str("Members ")?;
        f.debug_list().entries(of_end(self.first)).entries(self.between.clone()).entries(of_end(self.last)).finish()
    }
}

macro_rules! counts_fit {
    ($($T:ty),*) => {$(
        impl<R: DoubleEndedIterator<Item = RangeInclusive<$T>> + Clone> ExactSizeIterator for Members<$T, R> {}
    )*};
}

counts_fit!(u8, u16, u32, usize, i8, i16, i32, isize, char, Full<u8>, Full<u16>);
#[cfg(target_pointer_width = "64")]
counts_fit!(u64, i64, Full<u32>, core::net::Ipv4Addr);

macro_rules! iterations {
    ($Set:ident: $Iter:ident) => {
        /// Iterates over the members, in ascending order.
        impl<T: Width> IntoIterator for $Set<T> {
            type Item = T;

            type IntoIter = IntoIter<T>;

            fn into_iter(self) -> IntoIter<T> {
                Members::of(self.into_runs())
            }
        }

        /// Iterates over the members, in ascending order.
        impl<'a, T: Width> IntoIterator for &'a $Set<T> {
            type Item = T;

            type IntoIter = $Iter<'a, T>;

            fn into_iter(self) -> $Iter<'a, T> {
                self.iter()
            }
        }

        /// Makes the set of every piece. All numbers must be within the limits. `O(k log k)` for `k` pieces.
        impl<T: Width, P: Pieces<T>> FromIterator<P> for $Set<T> {
            fn from_iter<I: IntoIterator<Item = P>>(pieces: I) -> Self {
                Self::gathered("from_iter", pieces)
            }
        }
    };
}

iterations!(IntervalSet: Iter);
iterations!(PagedSet: PagedIter);
