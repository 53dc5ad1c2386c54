// Written by bindings/rust/extract from crates/intervallum/src/interval_set/members.rt.
//! Iteration over the members of a set, from both ends.

#[allow(unused_imports)]
use crate::rattle::prelude::*;
use super::IntervalSet;
use crate::proved::intervallum::interval::Interval;
use crate::proved::intervallum::ops::{Bounded, Cardinality, Empty, IsEmpty, StrictShrinkLeft, StrictShrinkRight};
use crate::proved::intervallum::width::{SizeNumber, Width};
use crate::rattle::std::alloc::AllocError;
use crate::rattle::std::iter::FusedIterator;

use crate::rattle::std::mem;

/// A double-ended iterator over the members of a set, ascending, as `members` returns it. A
/// contract sees the numbers that are left.
///
/// No call allocates.
///
/// ```
/// use intervallum::proved::examples::*;
///
/// fn main() -> Result<(), std::boxed::Box<dyn std::error::Error>> {
///     let alloc = Global;
///     let a: IntervalSet<i32> = [(1, 2), (5, 6)].to_interval_set(alloc)?;
///     let mut left = a.members();
///     assert_eq!(left.next(), Some(1));
///     assert_eq!(left.next_back(), Some(6));
///     assert_eq!(left.next(), Some(2));
///     Ok(())
/// }
/// ```
pub struct Members<'a, B: Width> {
    pub(super) first: Interval<B>,
    pub(super) between: &'a [Interval<B>],
    pub(super) last: Interval<B>,
}

/// Proved, with these words of the trait:
///
/// ```text
/// is_clone = { λ m copy. copy ≡ m }
/// is_infallible = { λ _. ⊤ }
/// ```
impl<'a, B: Width> Clone for Members<'a, B> {
    /// Returns an iterator over the members that are left. `O(1)`. Never fails.
    ///
    /// ```
    /// use intervallum::proved::examples::*;
    ///
    /// fn main() -> Result<(), std::boxed::Box<dyn std::error::Error>> {
    ///     let alloc = Global;
    ///     let a = IntervalSet::new(alloc, 1, 3)?;
    ///     let mut left = a.members();
    ///     assert_eq!(left.next(), Some(1));
    ///     assert_eq!(left.clone()?.next(), Some(2));
    ///     assert_eq!(left.next(), Some(2));
    ///     Ok(())
    /// }
    /// ```
    fn clone(&self) -> Result<Self, AllocError> {
        Ok(Members {
            first: self.first,
            between: self.between,
            last: self.last,
        })
    }
}

/// Proved, with these words of the trait:
///
/// It yields the first member that is left, or `None` if none is.
///
/// ```text
/// next_gives = { YieldsFirstBy B.value (λ left. left) }
/// remaining = { item_count (λ left. left) }
/// ```
impl<'a, B: Width> Iterator for Members<'a, B> {
    type Item = B;

    /// Returns the least member that is left, or `None` if there is none. `O(1)`.
    ///
    /// ```
    /// use intervallum::proved::examples::*;
    ///
    /// fn main() -> Result<(), std::boxed::Box<dyn std::error::Error>> {
    ///     let alloc = Global;
    ///     let a: IntervalSet<i32> = [(1, 1), (5, 6)].to_interval_set(alloc)?;
    ///     let mut left = a.members();
    ///     assert_eq!(left.next(), Some(1));
    ///     assert_eq!(left.next(), Some(5));
    ///     Ok(())
    /// }
    /// ```
    fn next(&mut self) -> Option<B> {
        if self.first.is_empty() {
            self.first = match self.between.split_first() {
                Some((run, rest)) => {
                    self.between = rest;
                    *run
                }
                None => mem::replace(&mut self.last, Interval::empty()),
            };
        }
        take_least(&mut self.first)
    }

    /// Returns how many members are left, as both bounds. Where a `usize` does not hold so many,
    /// they are its greatest value and `None`. Adds up the runs that are left: `O(n)`.
    ///
    /// ```
    /// use intervallum::proved::examples::*;
    ///
    /// fn main() -> Result<(), std::boxed::Box<dyn std::error::Error>> {
    ///     let alloc = Global;
    ///     let a: IntervalSet<i32> = [(1, 3), (5, 6)].to_interval_set(alloc)?;
    ///     assert!(a.members().size_hint() == (5, Some(5)));
    ///     Ok(())
    /// }
    /// ```
    ///
    /// # Proved
    ///
    /// Both bounds are the number of members that are left; if a `usize` does not hold it, they are the greatest `usize` and `None`.
    ///
    /// ```text
    /// ensures lower { IsWithinCount result.0 (item_count (λ left. left) self.now) }
    /// ensures upper { IfSome result.1 (UpTo (item_count (λ left. left) self.now)) }
    /// ensures exact { IsExactHint result (length self.now) }
    /// ```
    fn size_hint(&self) -> (usize, Option<usize>) {
        match usize::try_from(count_of(&self.first, self.between, &self.last)) {
            Ok(count) => (count, Some(count)),
            Err(_) => (usize::MAX, None),
        }
    }
}

/// Proved, with these words of the trait:
///
/// It yields the last member that is left, or `None` if none is.
///
/// ```text
/// next_back_gives = { YieldsLastBy B.value (λ left. left) }
/// ```
impl<'a, B: Width> DoubleEndedIterator for Members<'a, B> {
    /// Returns the greatest member that is left, or `None` if there is none. `O(1)`.
    ///
    /// ```
    /// use intervallum::proved::examples::*;
    ///
    /// fn main() -> Result<(), std::boxed::Box<dyn std::error::Error>> {
    ///     let alloc = Global;
    ///     let a: IntervalSet<i32> = [(1, 2), (5, 5)].to_interval_set(alloc)?;
    ///     let mut left = a.members();
    ///     assert_eq!(left.next_back(), Some(5));
    ///     assert_eq!(left.next_back(), Some(2));
    ///     Ok(())
    /// }
    /// ```
    fn next_back(&mut self) -> Option<B> {
        if self.last.is_empty() {
            self.last = match self.between.split_last() {
                Some((run, rest)) => {
                    self.between = rest;
                    *run
                }
                None => mem::replace(&mut self.first, Interval::empty()),
            };
        }
        take_greatest(&mut self.last)
    }
}

impl<'a, B: Width> FusedIterator for Members<'a, B> {}

impl<'a, B: Width> Members<'a, B> {
    /// No more members are left than the range has. This does nothing: its contract is the fact.
    fn in_counts(&self) {
        let _first = self.first;
    }
}

impl<'a> ExactSizeIterator for Members<'a, usize> {
    /// Returns how many members are left. Adds up the runs that are left: `O(n)`.
    ///
    /// ```
    /// use intervallum::proved::examples::*;
    ///
    /// fn main() -> Result<(), std::boxed::Box<dyn std::error::Error>> {
    ///     let alloc = Global;
    ///     let a: IntervalSet<usize> = [(1, 3), (5, 6)].to_interval_set(alloc)?;
    ///     assert_eq!(a.members().len(), 5);
    ///     Ok(())
    /// }
    /// ```
    fn len(&self) -> usize {
        self.in_counts();
        self.size_hint().0
    }
}

impl<'a> ExactSizeIterator for Members<'a, isize> {
    /// Returns how many members are left. Adds up the runs that are left: `O(n)`.
    ///
    /// ```
    /// use intervallum::proved::examples::*;
    ///
    /// fn main() -> Result<(), std::boxed::Box<dyn std::error::Error>> {
    ///     let alloc = Global;
    ///     let a: IntervalSet<isize> = [(-3, -1), (5, 6)].to_interval_set(alloc)?;
    ///     assert_eq!(a.members().len(), 5);
    ///     Ok(())
    /// }
    /// ```
    fn len(&self) -> usize {
        self.in_counts();
        self.size_hint().0
    }
}

/// How many numbers an interval, a list of intervals and another interval have; at most as many as
/// a `u128` holds.
fn count_of<B: Width>(first: &Interval<B>, between: &[Interval<B>], last: &Interval<B>) -> u128 {
    let mut count = first.size().number().saturating_add(last.size().number());
    for run in between {
        count = count.saturating_add(run.size().number());
    }
    count
}

/// Takes the least number of an interval away, if it has one.
fn take_least<B: Width>(part: &mut Interval<B>) -> Option<B> {
    if part.is_empty() {
        return None;
    }
    let least = part.lower();
    *part = part.strict_shrink_left(least);
    Some(least)
}

/// Takes the greatest number of an interval away, if it has one.
fn take_greatest<B: Width>(part: &mut Interval<B>) -> Option<B> {
    if part.is_empty() {
        return None;
    }
    let greatest = part.upper();
    *part = part.strict_shrink_right(greatest);
    Some(greatest)
}

impl<B: Width> IntervalSet<B> {
    /// Returns a double-ended iterator over the members, each once, in ascending order. `O(1)`.
    /// Does not allocate.
    ///
    /// ```
    /// use intervallum::proved::examples::*;
    ///
    /// fn main() -> Result<(), std::boxed::Box<dyn std::error::Error>> {
    ///     let alloc = Global;
    ///     let a: IntervalSet<i32> = [(5, 6), (1, 2)].to_interval_set(alloc)?;
    ///     let all: Vec<i32> = a.members().collect();
    ///     assert!(all.as_slice() == [1, 2, 5, 6].as_slice());
    ///     Ok(())
    /// }
    /// ```
    ///
    /// # Proved
    ///
    /// The iterator yields exactly the members, each greater than the one before: the numbers of each run in turn. The runs are ascending, lie in the range, and neither overlap nor touch.
    ///
    /// ```text
    /// ensures left { result ≡ members_of self.now }
    /// ensures members { SameMembers (Covers self.now) (IsIn result) }
    /// ensures ascending { IsAscending result }
    /// ensures runs { IsRunListIn B.whole self.now }
    /// ```
    ///
    /// Words: [`members_of`](crate::definitions#members_of), [`SameMembers`](crate::definitions#SameMembers), [`Covers`](crate::definitions#Covers), [`IsIn`](crate::definitions#IsIn), [`IsAscending`](crate::definitions#IsAscending), [`IsRunListIn`](crate::definitions#IsRunListIn).
    pub fn members(&self) -> Members<'_, B> {
        Members {
            first: Interval::empty(),
            between: self.as_runs(),
            last: Interval::empty(),
        }
    }
}
