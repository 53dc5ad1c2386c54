//! Calls that the proved sets lack, each made of a few of theirs: fits from above and at multiples, gaps that are closed, and members
//! that are moved.
use super::conditions::{broken, contract, unless_broken, within_range};
use super::reads::ABOVE_0;
use super::{IntervalSet, PagedSet};
use crate::proved::width::{SizeNumber, Width};
use crate::proved::{Interval, ops::Range as _};
use alloc::vec::Vec;
use core::ops::RangeInclusive;

/// Returns how many numbers a range has, which must be within the limits.
fn size_of<T: Width>(run: &RangeInclusive<T>) -> T::Output {
    T::width(run.start(), run.end())
}

/// Returns the range from one number to another, which must be within the limits.
fn range<T: Width>(lower: i128, upper: i128) -> Option<RangeInclusive<T>> {
    Some(T::from_number(lower)?..=T::from_number(upper)?)
}

macro_rules! fits {
    ($Set:ident) => {
        /// Consecutive members, and sets of moved members.
        impl<T: Width> $Set<T> {
            /// Returns the highest `count` consecutive members, or `None` if there are none. `count` must be above 0. `O(n)`.
            ///
            /// ```
            #[doc = concat!("# use intervallum::", stringify!($Set), ";")]
            #[doc = concat!("let a = ", stringify!($Set), "::from([1..=5, 8..=9u8]);")]
            /// assert_eq!((a.last_fit(2), a.last_fit(3), a.last_fit(6)), (Some(8..=9), Some(3..=5), None));
            /// ```
            #[doc = contract!(over $Set "iter")]
            #[must_use]
            #[track_caller]
            pub fn last_fit(&self, count: T::Output) -> Option<RangeInclusive<T>> {
                unless_broken!($Set: self.checked_last_fit(count), ABOVE_0, "last_fit(0)")
            }

            /// Returns [`last_fit`](Self::last_fit), or `None` if its condition does not hold.
            ///
            /// ```
            #[doc = concat!("# use intervallum::", stringify!($Set), ";")]
            #[doc = concat!("let a = ", stringify!($Set), "::from(1..=5u8);")]
            /// assert_eq!((a.checked_last_fit(2), a.checked_last_fit(0)), (Some(Some(4..=5)), None));
            /// ```
            #[doc = contract!(of "last_fit")]
            #[must_use]
            pub fn checked_last_fit(&self, count: T::Output) -> Option<Option<RangeInclusive<T>>> {
                let count = i128::try_from(count.number()).ok().filter(|count| *count > 0)?;
                let has_room = |run: &RangeInclusive<T>| run.end().number() - run.start().number() >= count - 1;
                let last = self.runs().rev().find(has_room).map(|run| run.end().number());
                Some(last.and_then(|last| range(last - (count - 1), last)))
            }

            /// Returns the lowest `count` consecutive members of which the first is a multiple of `align`, or `None` if there are none.
            /// Both must be above 0. `O(n)`.
            ///
            /// ```
            #[doc = concat!("# use intervallum::", stringify!($Set), ";")]
            #[doc = concat!("let free = ", stringify!($Set), "::from([0x100..=0x10f, 0x1234..=0x5fff_u32]);")]
            /// assert_eq!(free.first_fit_aligned(0x800, 0x1000), Some(0x2000..=0x27ff));
            /// assert_eq!(free.first_fit_aligned(16, 16), Some(0x100..=0x10f));
            /// ```
            #[doc = contract!(over $Set "iter")]
            #[must_use]
            #[track_caller]
            pub fn first_fit_aligned(&self, count: T::Output, align: T::Output) -> Option<RangeInclusive<T>> {
                let condition = "the count and what it is aligned to must be above 0";
                let call = (count.number(), align.number());
                unless_broken!($Set: self.checked_first_fit_aligned(count, align), condition, "first_fit_aligned{call:?}")
            }

            /// Returns [`first_fit_aligned`](Self::first_fit_aligned), or `None` if its condition does not hold.
            ///
            /// ```
            #[doc = concat!("# use intervallum::", stringify!($Set), ";")]
            #[doc = concat!("let a = ", stringify!($Set), "::from(1..=9u8);")]
            /// assert_eq!((a.checked_first_fit_aligned(2, 4), a.checked_first_fit_aligned(2, 0)), (Some(Some(4..=5)), None));
            /// ```
            #[doc = contract!(of "first_fit_aligned")]
            #[must_use]
            pub fn checked_first_fit_aligned(
                &self,
                count: T::Output,
                align: T::Output,
            ) -> Option<Option<RangeInclusive<T>>> {
                let count = i128::try_from(count.number()).ok().filter(|count| *count > 0)?;
                let align = i128::try_from(align.number()).ok().filter(|align| *align > 0)?;
                let aligned = |run: RangeInclusive<T>| {
                    let lower = run.start().number();
                    let first = lower + (-lower).rem_euclid(align);
                    (run.end().number() - first >= count - 1).then_some(first)
                };
                Some(self.runs().find_map(aligned).and_then(|first| range(first, first + (count - 1))))
            }

            /// Adds the numbers of each gap between two runs that has at most so many. `O(n)`.
            ///
            /// ```
            #[doc = concat!("# use intervallum::", stringify!($Set), ";")]
            #[doc = concat!("let mut dirty = ", stringify!($Set), "::from([0..=3, 6..=9, 20..=21, 23..=30u32]);")]
            /// dirty.close_gaps(2);
            /// assert_eq!(dirty.to_string(), "{[0..9][20..30]}");
            /// ```
            #[doc = contract!(of "gaps_within")]
            pub fn close_gaps(&mut self, most: T::Output) {
                if let Some(hull) = self.hull() {
                    let mut gaps = self.gaps_within(hull);
                    gaps.retain_runs(|gap| size_of(&gap).number() <= most.number());
                    *self |= gaps;
                }
            }

            /// Returns the members, each moved by so many numbers: the next one of a character or an address is that whose number is
            /// greater by one. All must then be within the limits. `O(n)`.
            ///
            /// ```
            #[doc = concat!("# use intervallum::", stringify!($Set), ";")]
            #[doc = concat!("let lower = ", stringify!($Set), "::from(['a'..='c', 'x'..='z']);")]
            /// assert_eq!(lower.shifted(-32).to_string(), "{[A..C][X..Z]}");
            /// ```
            #[doc = contract!(over $Set "iter")]
            #[must_use]
            #[track_caller]
            pub fn shifted(&self, by: i64) -> Self {
                unless_broken!($Set: self.checked_shifted(by), within_range::<T>("the moved members"), "shifted({by})")
            }

            /// Returns [`shifted`](Self::shifted), or `None` if its condition does not hold.
            ///
            /// ```
            #[doc = concat!("# use intervallum::", stringify!($Set), ";")]
            #[doc = concat!("let a = ", stringify!($Set), "::from(1..=5u8);")]
            #[doc = concat!("assert_eq!((a.checked_shifted(2), a.checked_shifted(-2)), (Some(", stringify!($Set), "::from(3..=7)), None));")]
            /// ```
            #[doc = contract!(of "shifted")]
            #[must_use]
            pub fn checked_shifted(&self, by: i64) -> Option<Self> {
                let moved = |value: T| T::from_number(value.number() + i128::from(by));
                let interval = |run: RangeInclusive<T>| Some(Interval::new(moved(*run.start())?, moved(*run.end())?));
                Some(Self::of_intervals(self.runs().map(interval).collect::<Option<Vec<_>>>()?))
            }
        }
    };
}

fits!(IntervalSet);
fits!(PagedSet);

/// Returns true exactly when the members are the same. `O(n)`.
impl<T: Width> PartialEq<PagedSet<T>> for IntervalSet<T> {
    fn eq(&self, other: &PagedSet<T>) -> bool {
        self.interval_count() == other.interval_count() && self.runs().eq(other.runs())
    }
}

/// Returns true exactly when the members are the same. `O(n)`.
impl<T: Width> PartialEq<IntervalSet<T>> for PagedSet<T> {
    fn eq(&self, other: &IntervalSet<T>) -> bool {
        other == self
    }
}
