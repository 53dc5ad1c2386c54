// Written by bindings/rust/extract from crates/ivl_interval/src/interval/shrinks.rt.
//! Intervals cut at a value, from either side, with or without the value itself.

#[allow(unused_imports)]
use crate::rattle::prelude::*;
use crate::proved::ivl_interval::interval::Interval;
use crate::proved::ivl_interval::interval::sets::{predecessor, successor};
use crate::proved::ivl_interval::ops::{Empty, Range, ShrinkLeft, ShrinkRight, StrictShrinkLeft, StrictShrinkRight};
use crate::proved::ivl_interval::width::Width;

/// Proved, with these words of the trait:
///
/// ```text
/// answers = { λ p S. SameMembers (IsBetween p) S }
/// ```
///
/// Words: [`SameMembers`](crate::definitions#SameMembers), [`IsBetween`](crate::definitions#IsBetween).
impl<B: Width> ShrinkLeft for Interval<B> {
    type Output = Interval<B>;

    /// Returns the members that are at least `lower`, which may be any value of its type.
    ///
    /// ```
    /// use intervallum::proved::examples::*;
    ///
    /// fn main() -> Result<(), std::boxed::Box<dyn std::error::Error>> {
    ///     let alloc = Global;
    ///     let a = Interval::new(1u8, 9);
    ///     assert_eq!(a.shrink_left(0), a);
    ///     assert!(a.shrink_left(255).is_empty());
    ///     Ok(())
    /// }
    /// ```
    ///
    /// # Proved
    ///
    /// What [`ShrinkLeft::shrink_left`] says, by the words of the type.
    fn shrink_left(&self, lower: B) -> Interval<B> {
        Self::new(self.lb.max(lower), self.ub)
    }
}

/// Proved, with these words of the trait:
///
/// ```text
/// answers = { λ p S. SameMembers (IsBetween p) S }
/// ```
///
/// Words: [`SameMembers`](crate::definitions#SameMembers), [`IsBetween`](crate::definitions#IsBetween).
impl<B: Width> ShrinkRight for Interval<B> {
    type Output = Interval<B>;

    /// Returns the members that are at most `upper`, which may be any value of its type.
    ///
    /// ```
    /// use intervallum::proved::examples::*;
    ///
    /// fn main() -> Result<(), std::boxed::Box<dyn std::error::Error>> {
    ///     let alloc = Global;
    ///     let a = Interval::new(1u8, 9);
    ///     assert!(a.shrink_right(0).is_empty());
    ///     assert_eq!(a.shrink_right(255), a);
    ///     Ok(())
    /// }
    /// ```
    ///
    /// # Proved
    ///
    /// What [`ShrinkRight::shrink_right`] says, by the words of the type.
    fn shrink_right(&self, upper: B) -> Interval<B> {
        Self::new(self.lb, self.ub.min(upper))
    }
}

/// Proved, with these words of the trait:
///
/// ```text
/// answers = { λ p S. SameMembers (IsBetween p) S }
/// ```
///
/// Words: [`SameMembers`](crate::definitions#SameMembers), [`IsBetween`](crate::definitions#IsBetween).
impl<B: Width> StrictShrinkLeft for Interval<B> {
    type Output = Interval<B>;

    /// Returns the members above `lower`, which may be any value of its type.
    ///
    /// ```
    /// use intervallum::proved::examples::*;
    ///
    /// fn main() -> Result<(), std::boxed::Box<dyn std::error::Error>> {
    ///     let alloc = Global;
    ///     let a = Interval::new(1u8, 9);
    ///     assert_eq!(a.strict_shrink_left(0), a);
    ///     assert!(a.strict_shrink_left(9).is_empty());
    ///     Ok(())
    /// }
    /// ```
    ///
    /// # Proved
    ///
    /// What [`StrictShrinkLeft::strict_shrink_left`] says, by the words of the type.
    fn strict_shrink_left(&self, lower: B) -> Interval<B> {
        if lower < self.lb {
            return *self;
        }
        if lower >= self.ub {
            return Self::empty();
        }
        // below the upper bound, so the next number is in the range
        Self::new(successor(lower), self.ub)
    }
}

/// Proved, with these words of the trait:
///
/// ```text
/// answers = { λ p S. SameMembers (IsBetween p) S }
/// ```
///
/// Words: [`SameMembers`](crate::definitions#SameMembers), [`IsBetween`](crate::definitions#IsBetween).
impl<B: Width> StrictShrinkRight for Interval<B> {
    type Output = Interval<B>;

    /// Returns the members below `upper`, which may be any value of its type.
    ///
    /// ```
    /// use intervallum::proved::examples::*;
    ///
    /// fn main() -> Result<(), std::boxed::Box<dyn std::error::Error>> {
    ///     let alloc = Global;
    ///     let a = Interval::new(1u8, 9);
    ///     assert!(a.strict_shrink_right(1).is_empty());
    ///     assert_eq!(a.strict_shrink_right(255), a);
    ///     Ok(())
    /// }
    /// ```
    ///
    /// # Proved
    ///
    /// What [`StrictShrinkRight::strict_shrink_right`] says, by the words of the type.
    fn strict_shrink_right(&self, upper: B) -> Interval<B> {
        if upper > self.ub {
            return *self;
        }
        if upper <= self.lb {
            return Self::empty();
        }
        // above the lower bound, so the number before is in the range
        Self::new(self.lb, predecessor(upper))
    }
}
