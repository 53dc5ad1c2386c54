// Written by bindings/rust/extract from crates/ivl_paged/src/paged_set/members.rt.
//! Iteration over the members that lie in a window, from both ends.

#[allow(unused_imports)]
use crate::rattle::prelude::*;
use super::PagedSet;
use super::iter::Runs;
use crate::proved::intervallum::interval::Interval;
use crate::proved::intervallum::ops::{
    Bounded, Empty, Intersection, IsEmpty, StrictShrinkLeft, StrictShrinkRight,
};
use crate::proved::intervallum::width::Width;
use crate::rattle::std::iter::FusedIterator;

use crate::rattle::std::mem;

/// A double-ended iterator over members, ascending, as `members_within` returns it. A contract sees
/// the numbers that are left.
///
/// No call allocates.
///
/// ```
/// use intervallum::proved::examples::*;
///
/// fn main() -> Result<(), std::boxed::Box<dyn std::error::Error>> {
///     let alloc = Global;
///     let list: IntervalSet<i32> = [(1, 2), (5, 6)].to_interval_set(alloc)?;
///     let a = PagedSet::of_set(&list)?;
///     let mut left = a.members_within(&Interval::new(2, 9));
///     assert_eq!(left.next(), Some(2));
///     assert_eq!(left.next_back(), Some(6));
///     assert_eq!(left.next(), Some(5));
///     Ok(())
/// }
/// ```
pub struct Members<'a, B: Width> {
    first: Interval<B>,
    between: Runs<'a, B>,
    last: Interval<B>,
}

/// Proved, with these words of the trait:
///
/// It yields the first member that is left, or `None` if none is.
///
/// ```text
/// next_gives = { YieldsFirstBy B.value (λ left. left) }
/// remaining = { item_count (λ left. left) }
/// ```
impl<'a, B: Width> Iterator for Members<'a, B> {
    type Item = B;

    /// Returns the least member that is left, or `None` if there is none. `O(1)`.
    ///
    /// ```
    /// use intervallum::proved::examples::*;
    ///
    /// fn main() -> Result<(), std::boxed::Box<dyn std::error::Error>> {
    ///     let alloc = Global;
    ///     let mut a = PagedSet::new(alloc);
    ///     assert!(a.insert(1)? && a.insert(5)?);
    ///     let mut left = a.members_within(&Interval::whole());
    ///     assert_eq!(left.next(), Some(1));
    ///     assert_eq!(left.next(), Some(5));
    ///     Ok(())
    /// }
    /// ```
    fn next(&mut self) -> Option<B> {
        if self.first.is_empty() {
            self.first = match self.between.next() {
                Some(run) => run,
                None => mem::replace(&mut self.last, Interval::empty()),
            };
        }
        take_least(&mut self.first)
    }
}

/// Proved, with these words of the trait:
///
/// It yields the last member that is left, or `None` if none is.
///
/// ```text
/// next_back_gives = { YieldsLastBy B.value (λ left. left) }
/// ```
impl<'a, B: Width> DoubleEndedIterator for Members<'a, B> {
    /// Returns the greatest member that is left, or `None` if there is none. `O(1)`.
    ///
    /// ```
    /// use intervallum::proved::examples::*;
    ///
    /// fn main() -> Result<(), std::boxed::Box<dyn std::error::Error>> {
    ///     let alloc = Global;
    ///     let mut a = PagedSet::new(alloc);
    ///     assert!(a.insert(1)? && a.insert(5)?);
    ///     let mut left = a.members_within(&Interval::whole());
    ///     assert_eq!(left.next_back(), Some(5));
    ///     assert_eq!(left.next_back(), Some(1));
    ///     Ok(())
    /// }
    /// ```
    fn next_back(&mut self) -> Option<B> {
        if self.last.is_empty() {
            self.last = match self.between.next_back() {
                Some(run) => run,
                None => mem::replace(&mut self.first, Interval::empty()),
            };
        }
        take_greatest(&mut self.last)
    }
}

impl<'a, B: Width> FusedIterator for Members<'a, B> {}

/// Takes the least number of an interval away, if it has one.
fn take_least<B: Width>(part: &mut Interval<B>) -> Option<B> {
    if part.is_empty() {
        return None;
    }
    let least = part.lower();
    *part = part.strict_shrink_left(least);
    Some(least)
}

/// Takes the greatest number of an interval away, if it has one.
fn take_greatest<B: Width>(part: &mut Interval<B>) -> Option<B> {
    if part.is_empty() {
        return None;
    }
    let greatest = part.upper();
    *part = part.strict_shrink_right(greatest);
    Some(greatest)
}

impl<B: Width> PagedSet<B> {
    /// Returns a double-ended iterator over the members that lie in the window, each once, in
    /// ascending order. The window may be empty.
    ///
    /// Binary searches for the pages of both ends and in them: `O(log n)`, and `O(1)` for each
    /// member. Does not allocate.
    ///
    /// ```
    /// use intervallum::proved::examples::*;
    ///
    /// fn main() -> Result<(), std::boxed::Box<dyn std::error::Error>> {
    ///     let alloc = Global;
    ///     let list: IntervalSet<i32> = [(1, 2), (5, 6), (9, 9)].to_interval_set(alloc)?;
    ///     let a = PagedSet::of_set(&list)?;
    ///     let some: Vec<i32> = a.members_within(&Interval::new(2, 5)).collect();
    ///     assert!(some.as_slice() == [2, 5].as_slice());
    ///     Ok(())
    /// }
    /// ```
    ///
    /// # Proved
    ///
    /// The iterator yields exactly the members that are in the window, each greater than the one before.
    ///
    /// ```text
    /// ensures members { SameMembers (Intersection (Covers self.now) (IsBetween window.now)) (IsIn result) }
    /// ensures ascending { IsAscending result }
    /// ```
    ///
    /// Words: [`SameMembers`](crate::definitions#SameMembers), [`Intersection`](crate::definitions#Intersection), [`Covers`](crate::definitions#Covers), [`IsBetween`](crate::definitions#IsBetween), [`IsIn`](crate::definitions#IsIn), [`IsAscending`](crate::definitions#IsAscending).
    pub fn members_within(&self, window: &Interval<B>) -> Members<'_, B> {
        let mut between = self.runs_within(window);
        let none = Interval::empty();
        let Some(run) = between.next() else {
            return Members {
                first: none,
                between,
                last: none,
            };
        };
        let first = run.intersection(window);
        let Some(run) = between.next_back() else {
            return Members {
                first,
                between,
                last: none,
            };
        };
        Members {
            first,
            between,
            last: run.intersection(window),
        }
    }
}
