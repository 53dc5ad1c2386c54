//! Sets from sets.
use super::conditions::{contract, cost, memory};
use super::paged::OfList;
use super::{
    AnySet, IntervalSet, PagedSet, Piece,
    below::{Operand as _, Operation, Proved as _},
};
use crate::proved::ops::Intersection;
#[cfg(doc)] // the docs link to their methods
use crate::proved::ops::{Complement, Difference, SymmetricDifference, Union};
use crate::proved::{self, Global, width::Width};
use alloc::vec::Vec;

macro_rules! combining {
    ($Set:ident) => {
        /// Sets from sets of either kind.
        impl<T: Width> $Set<T> {
            /// Returns the members of either set, as `|` does.
            #[doc = cost!($Set merge)]
            ///
            /// ```
            /// # use intervallum::{IntervalSet, PagedSet};
            #[doc = concat!("let (a, b) = (", stringify!($Set), "::new(1, 5), PagedSet::new(4, 9));")]
            /// assert_eq!(a.union(&b).to_string(), "[1..9]");
            /// assert_eq!(a.intersection(&b).to_string(), "[4..5]");
            /// assert_eq!(a.difference(&b).to_string(), "[1..3]");
            /// assert_eq!(a.symmetric_difference(&b).to_string(), "{[1..3][6..9]}");
            /// ```
            #[doc = contract!($Set "union")]
            #[must_use]
            pub fn union(&self, other: &impl AnySet<T>) -> Self {
                Self(Some(memory(self.as_proved().combined(other, Operation::Union))))
            }

            /// Returns the members of both sets, as `&` does.
            #[doc = cost!($Set merge)]
            /// Of two `IntervalSet`s, `O(k log n)` if one has only `k` runs, far fewer than the other.
            ///
            /// ```
            #[doc = concat!("# use intervallum::", stringify!($Set), ";")]
            #[doc = concat!("let (a, b) = (", stringify!($Set), "::new(1, 5), ", stringify!($Set), "::from([0..=2, 5..=9]));")]
            /// assert_eq!(a.intersection(&b).to_string(), "{[1..2][5..5]}");
            /// assert_eq!(a.intersection(&b), &a & &b);
            /// ```
            #[doc = contract!($Set "intersection")]
            #[must_use]
            pub fn intersection(&self, other: &impl AnySet<T>) -> Self {
                Self(Some(memory(self.as_proved().combined(other, Operation::Intersection))))
            }

            /// Returns the members that are not in `other`.
            #[doc = cost!($Set merge)]
            /// Or less as for [`intersection`](Self::intersection). The operator `-` is not this call: it subtracts members.
            ///
            /// ```
            #[doc = concat!("# use intervallum::", stringify!($Set), ";")]
            #[doc = concat!("let (a, b) = (", stringify!($Set), "::new(1, 9), ", stringify!($Set), "::from([0..=2, 5..=6]));")]
            /// assert_eq!(a.difference(&b).to_string(), "{[3..4][7..9]}");
            /// assert_eq!(b.difference(&a).to_string(), "[0..0]");
            /// ```
            #[doc = contract!($Set "difference")]
            #[must_use]
            pub fn difference(&self, other: &impl AnySet<T>) -> Self {
                Self(Some(memory(self.as_proved().combined(other, Operation::Difference))))
            }

            /// Returns the members of exactly one of the sets, as `^` does.
            #[doc = cost!($Set merge)]
            ///
            /// ```
            #[doc = concat!("# use intervallum::", stringify!($Set), ";")]
            #[doc = concat!("let (a, b) = (", stringify!($Set), "::new(1, 5), ", stringify!($Set), "::new(4, 9));")]
            /// assert_eq!(a.symmetric_difference(&b).to_string(), "{[1..3][6..9]}");
            /// assert_eq!(a.symmetric_difference(&b), &a ^ &b);
            /// ```
            #[doc = contract!($Set "symmetric_difference")]
            #[must_use]
            pub fn symmetric_difference(&self, other: &impl AnySet<T>) -> Self {
                Self(Some(memory(self.as_proved().combined(other, Operation::SymmetricDifference))))
            }

            /// Returns the members of any of the sets: none if there is no set. `O(n log k)` for `k` sets of `n` runs in all.
            ///
            /// ```
            #[doc = concat!("# use intervallum::", stringify!($Set), ";")]
            #[doc = concat!("let [a, b, c] = [1..=2, 8..=9, 3..=5].map(", stringify!($Set), "::from);")]
            #[doc = concat!("assert_eq!(", stringify!($Set), "::union_of([&a, &b, &c]).to_string(), \"{[1..5][8..9]}\");")]
            /// ```
            #[doc = contract!(lists $Set "union_of")]
            #[must_use]
            pub fn union_of<'a>(sets: impl IntoIterator<Item = &'a Self>) -> Self
            where
                T: 'a,
            {
                let lists: Vec<_> = sets.into_iter().map(|set| set.list()).collect();
                let lists: Vec<_> = lists.iter().map(|list| &**list).collect();
                Self::of_list(proved::IntervalSet::union_of(Global, &lists))
            }

            /// Returns the members of each of the sets: all numbers within the limits if there is no set. `O(n log k)` for `k`
            /// sets of `n` runs in all.
            ///
            /// ```
            #[doc = concat!("# use intervallum::", stringify!($Set), ";")]
            #[doc = concat!("let [a, b, c] = [1..=9, 3..=20, 0..=5].map(", stringify!($Set), "::from);")]
            #[doc = concat!("assert_eq!(", stringify!($Set), "::intersection_of([&a, &b, &c]).to_string(), \"[3..5]\");")]
            #[doc = concat!("assert_eq!(", stringify!($Set), "::<u8>::intersection_of([]), ", stringify!($Set), "::whole());")]
            /// ```
            #[doc = contract!(lists $Set "intersection_of")]
            #[must_use]
            pub fn intersection_of<'a>(sets: impl IntoIterator<Item = &'a Self>) -> Self
            where
                T: 'a,
            {
                let lists: Vec<_> = sets.into_iter().map(|set| set.list()).collect();
                let lists: Vec<_> = lists.iter().map(|list| &**list).collect();
                Self::of_list(proved::IntervalSet::intersection_of(Global, &lists))
            }

            /// Returns the complement within the limits, as `!` does. `O(n)`.
            ///
            /// ```
            #[doc = concat!("# use intervallum::", stringify!($Set), ";")]
            #[doc = concat!("assert_eq!(", stringify!($Set), "::new(10u8, 254).complement().to_string(), \"[0..9]\");")]
            /// ```
            #[doc = contract!($Set "complement")]
            #[must_use]
            pub fn complement(&self) -> Self {
                Self(Some(memory(self.as_proved().others())))
            }

            /// Returns the members that lie in a range.
            #[doc = cost!($Set part)]
            ///
            /// ```
            #[doc = concat!("# use intervallum::", stringify!($Set), ";")]
            #[doc = concat!("let a = ", stringify!($Set), "::from([1..=2, 5..=9]);")]
            /// assert_eq!(a.within(2..7).to_string(), "{[2..2][5..6]}");
            /// assert_eq!(a.gaps_within(0..=7).to_string(), "{[0..0][3..4]}");
            /// ```
            #[doc = contract!(lists $Set "intersection")]
            #[must_use]
            pub fn within(&self, range: impl Piece<T>) -> Self {
                Self(Some(memory(self.as_proved().intersection(&range.clamped()))))
            }

            /// Returns the numbers of a range that are not members, and are within the limits.
            #[doc = cost!($Set part)]
            ///
            /// ```
            #[doc = concat!("# use intervallum::", stringify!($Set), ";")]
            #[doc = concat!("let busy = ", stringify!($Set), "::from([9..=10, 13..=15]);")]
            /// let free = busy.gaps_within(8..18);
            /// assert_eq!(free.to_string(), "{[8..8][11..12][16..17]}");
            /// ```
            #[doc = contract!(lists $Set "gaps_within")]
            #[must_use]
            pub fn gaps_within(&self, range: impl Piece<T>) -> Self {
                let gaps = self.as_proved().gaps_within(&range.clamped());
                Self(Some(memory(gaps.and_then(OfList::of_list))))
            }
        }
    };
}

combining!(IntervalSet);
combining!(PagedSet);
