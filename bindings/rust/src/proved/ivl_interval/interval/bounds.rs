// Written by bindings/rust/extract from crates/ivl_interval/src/interval/bounds.rt.
//! Intervals from bounds, and queries of their bounds: the least and the greatest member, the size,
//! and membership.

#[allow(unused_imports)]
use crate::rattle::prelude::*;
use crate::proved::ivl_interval::interval::Interval;
use crate::proved::ivl_interval::ops::{
    Bot, Bounded, Cardinality, Collection, Contains, Empty, IntervalKind, IsEmpty, IsSingleton,
    Range, Singleton, Top, Whole,
};
use crate::proved::ivl_interval::width::{SizeNumber, Width};

/// Proved, with these words of the trait:
///
/// ```text
/// members = { IsBetween }
/// number = { B.value }
/// ```
///
/// Words: [`IsBetween`](crate::definitions#IsBetween).
impl<B: Width> Collection for Interval<B> {
    type Item = B;
}

impl<B: Width> IntervalKind for Interval<B> {}

/// Proved, with these words of the trait:
///
/// ```text
/// whole = { B.whole }
/// ```
impl<B: Width> Range for Interval<B> {
    /// Returns the interval from `lb` to `ub`, which is empty if `lb` is above `ub`. The caller
    /// must ensure `in_range(lb, ub)`.
    ///
    /// ```
    /// use intervallum::proved::examples::*;
    ///
    /// fn main() -> Result<(), std::boxed::Box<dyn std::error::Error>> {
    ///     let alloc = Global;
    ///     assert_eq!(Interval::new(1i32, 5).size(), 5);
    ///     assert!(Interval::new(8i32, 3).is_empty());
    ///     Ok(())
    /// }
    /// ```
    ///
    /// # Proved
    ///
    /// The members are exactly the numbers from `lb` to `ub`, which are its bounds.
    ///
    /// ```text
    /// requires { IsInRange B.whole (B.value lb, B.value ub) }
    /// ensures members { SameMembers (IsBetween result) (IsBetween (B.value lb, B.value ub)) }
    /// ensures value { result ≡ (B.value lb, B.value ub) }
    /// ```
    ///
    /// Words: [`IsInRange`](crate::definitions#IsInRange), [`SameMembers`](crate::definitions#SameMembers), [`IsBetween`](crate::definitions#IsBetween).
    #[cfg_attr(debug_assertions, track_caller)]
    fn new(lb: B, ub: B) -> Interval<B> {
        debug_assert!({ #[allow(unused_imports)] use crate::proved::ivl_interval::ops::*; Interval::in_range(lb, ub) }, "{}", "the condition of `new` is broken: Interval::in_range(lb, ub)");
        Interval { lb, ub }
    }
}

/// Proved, with these words of the trait:
///
/// ```text
/// members = { IsBetween }
/// ```
///
/// Words: [`IsBetween`](crate::definitions#IsBetween).
impl<B: Width> Empty for Interval<B> {
    /// Returns an empty interval.
    ///
    /// ```
    /// use intervallum::proved::examples::*;
    ///
    /// fn main() -> Result<(), std::boxed::Box<dyn std::error::Error>> {
    ///     let alloc = Global;
    ///     assert!(!Interval::<i32>::empty().contains(&0));
    ///     Ok(())
    /// }
    /// ```
    ///
    /// # Proved
    ///
    /// The result has no member: its bounds cross.
    ///
    /// ```text
    /// ensures members { HasNone (IsBetween result) }
    /// ensures crossed { IsCrossed result }
    /// ```
    ///
    /// Words: [`HasNone`](crate::definitions#HasNone), [`IsBetween`](crate::definitions#IsBetween), [`IsCrossed`](crate::definitions#IsCrossed).
    fn empty() -> Interval<B> {
        Self::new(B::one(), B::zero())
    }
}

/// Proved, with these words of the trait:
///
/// ```text
/// members = { IsBetween }
/// ```
///
/// Words: [`IsBetween`](crate::definitions#IsBetween).
impl<B: Width> Top for Interval<B> {
    /// Returns an empty interval, which entails every other.
    ///
    /// ```
    /// use intervallum::proved::examples::*;
    ///
    /// fn main() -> Result<(), std::boxed::Box<dyn std::error::Error>> {
    ///     let alloc = Global;
    ///     assert_eq!(Interval::top().entail(&Interval::new(1i32, 2)), SKleene::True);
    ///     Ok(())
    /// }
    /// ```
    ///
    /// # Proved
    ///
    /// The result has no member: its bounds cross.
    ///
    /// ```text
    /// ensures members { HasNone (IsBetween result) }
    /// ensures crossed { IsCrossed result }
    /// ```
    ///
    /// Words: [`HasNone`](crate::definitions#HasNone), [`IsBetween`](crate::definitions#IsBetween), [`IsCrossed`](crate::definitions#IsCrossed).
    fn top() -> Interval<B> {
        Self::empty()
    }
}

/// Proved, with these words of the trait:
///
/// ```text
/// members = { IsBetween }
/// whole = { B.whole }
/// ```
///
/// Words: [`IsBetween`](crate::definitions#IsBetween).
impl<B: Width> Whole for Interval<B> {
    /// Returns the range of `B`. A value is in the range exactly when `whole().contains(&value)` is
    /// true.
    ///
    /// ```
    /// use intervallum::proved::examples::*;
    ///
    /// fn main() -> Result<(), std::boxed::Box<dyn std::error::Error>> {
    ///     let alloc = Global;
    ///     let range = Interval::<i8>::whole();
    ///     assert!(range.contains(&-127) && !range.contains(&-128));
    ///     Ok(())
    /// }
    /// ```
    ///
    /// # Proved
    ///
    /// The members are exactly the numbers of the range, whose ends are its bounds.
    ///
    /// ```text
    /// ensures members { SameMembers (IsBetween result) (IsBetween B.whole) }
    /// ensures value { result ≡ B.whole }
    /// ```
    ///
    /// Words: [`SameMembers`](crate::definitions#SameMembers), [`IsBetween`](crate::definitions#IsBetween).
    fn whole() -> Interval<B> {
        Self::new(B::min_value(), B::max_value())
    }
}

/// Proved, with these words of the trait:
///
/// ```text
/// members = { IsBetween }
/// whole = { B.whole }
/// ```
///
/// Words: [`IsBetween`](crate::definitions#IsBetween).
impl<B: Width> Bot for Interval<B> {
    /// Returns the range of `B`, which every interval entails.
    ///
    /// ```
    /// use intervallum::proved::examples::*;
    ///
    /// fn main() -> Result<(), std::boxed::Box<dyn std::error::Error>> {
    ///     let alloc = Global;
    ///     assert_eq!(Interval::new(1i32, 2).entail(&Interval::bot()), SKleene::True);
    ///     Ok(())
    /// }
    /// ```
    ///
    /// # Proved
    ///
    /// The members are exactly the numbers of the range, whose ends are its bounds.
    ///
    /// ```text
    /// ensures members { SameMembers (IsBetween result) (IsBetween B.whole) }
    /// ensures value { result ≡ B.whole }
    /// ```
    ///
    /// Words: [`SameMembers`](crate::definitions#SameMembers), [`IsBetween`](crate::definitions#IsBetween).
    fn bot() -> Interval<B> {
        Self::whole()
    }
}

/// Proved, with these words of the trait:
///
/// ```text
/// whole = { B.whole }
/// ```
impl<B: Width> Singleton for Interval<B> {
    /// Returns the interval of `item` alone. The caller must ensure that `item` is in the range.
    /// Check with `whole().contains(&item)`.
    ///
    /// ```
    /// use intervallum::proved::examples::*;
    ///
    /// fn main() -> Result<(), std::boxed::Box<dyn std::error::Error>> {
    ///     let alloc = Global;
    ///     assert_eq!(Interval::singleton(5i32).size(), 1);
    ///     Ok(())
    /// }
    /// ```
    ///
    /// # Proved
    ///
    /// The only member is the item, which is both bounds.
    ///
    /// ```text
    /// requires { IsBetween B.whole (B.value item) }
    /// ensures members { SameMembers (IsBetween result) (Only (B.value item)) }
    /// ensures value { result ≡ (B.value item, B.value item) }
    /// ```
    ///
    /// Words: [`IsBetween`](crate::definitions#IsBetween), [`SameMembers`](crate::definitions#SameMembers), [`Only`](crate::definitions#Only).
    #[cfg_attr(debug_assertions, track_caller)]
    fn singleton(item: B) -> Interval<B> {
        Self::new(item, item)
    }
}

impl<B: Width> Bounded for Interval<B> {
    /// Returns the least member. The caller must ensure that the interval is not empty. Check with
    /// `is_empty`.
    ///
    /// ```
    /// use intervallum::proved::examples::*;
    ///
    /// fn main() -> Result<(), std::boxed::Box<dyn std::error::Error>> {
    ///     let alloc = Global;
    ///     assert_eq!(Interval::new(3i32, 8).lower(), 3);
    ///     Ok(())
    /// }
    /// ```
    ///
    /// # Proved
    ///
    /// The result is the least member, which is the lower bound and in the range.
    ///
    /// ```text
    /// requires { HasSome (IsBetween self.now) }
    /// ensures member { IsBetween self.now (B.value result) }
    /// ensures least { (z : ℤ) → IsBetween self.now z → B.value result ≤ℤ z }
    /// ensures value { B.value result ≡ self.now.0 }
    /// ensures in_range { IsBetween B.whole (B.value result) }
    /// ```
    ///
    /// Words: [`HasSome`](crate::definitions#HasSome), [`IsBetween`](crate::definitions#IsBetween).
    #[cfg_attr(debug_assertions, track_caller)]
    fn lower(&self) -> B {
        debug_assert!({ #[allow(unused_imports)] use crate::proved::ivl_interval::ops::*; !self.is_empty() }, "{}", "the condition of `lower` is broken: !self.is_empty()");
        self.lb
    }

    /// Returns the greatest member. The caller must ensure that the interval is not empty. Check
    /// with `is_empty`.
    ///
    /// ```
    /// use intervallum::proved::examples::*;
    ///
    /// fn main() -> Result<(), std::boxed::Box<dyn std::error::Error>> {
    ///     let alloc = Global;
    ///     assert_eq!(Interval::new(3i32, 8).upper(), 8);
    ///     Ok(())
    /// }
    /// ```
    ///
    /// # Proved
    ///
    /// The result is the greatest member, which is the upper bound and in the range.
    ///
    /// ```text
    /// requires { HasSome (IsBetween self.now) }
    /// ensures member { IsBetween self.now (B.value result) }
    /// ensures greatest { (z : ℤ) → IsBetween self.now z → z ≤ℤ B.value result }
    /// ensures value { B.value result ≡ self.now.1 }
    /// ensures in_range { IsBetween B.whole (B.value result) }
    /// ```
    ///
    /// Words: [`HasSome`](crate::definitions#HasSome), [`IsBetween`](crate::definitions#IsBetween).
    #[cfg_attr(debug_assertions, track_caller)]
    fn upper(&self) -> B {
        debug_assert!({ #[allow(unused_imports)] use crate::proved::ivl_interval::ops::*; !self.is_empty() }, "{}", "the condition of `upper` is broken: !self.is_empty()");
        self.ub
    }
}

/// Proved, with these words of the trait:
///
/// ```text
/// members = { IsBetween }
/// size_number = { B.Output.size }
/// ```
///
/// Words: [`IsBetween`](crate::definitions#IsBetween).
impl<B: Width> Cardinality for Interval<B> {
    type Size = B::Output;

    /// Returns the number of members.
    ///
    /// ```
    /// use intervallum::proved::examples::*;
    ///
    /// fn main() -> Result<(), std::boxed::Box<dyn std::error::Error>> {
    ///     let alloc = Global;
    ///     assert_eq!(Interval::<u8>::whole().size(), 255);
    ///     Ok(())
    /// }
    /// ```
    ///
    /// # Proved
    ///
    /// The result is the number of members: the upper bound less the lower plus one, or 0 if they cross.
    ///
    /// ```text
    /// ensures members { IsCountOf (B.Output.size result) (IsBetween self.now) }
    /// ensures width { B.Output.size result ≡ width_of self.now }
    /// ```
    ///
    /// Words: [`IsCountOf`](crate::definitions#IsCountOf), [`IsBetween`](crate::definitions#IsBetween), [`width_of`](crate::definitions#width_of).
    fn size(&self) -> B::Output {
        if self.is_empty() {
            <B::Output as SizeNumber>::zero()
        } else {
            B::width(&self.lb, &self.ub)
        }
    }
}

/// Proved, with these words of the trait:
///
/// ```text
/// members = { IsBetween }
/// ```
///
/// Words: [`IsBetween`](crate::definitions#IsBetween).
impl<B: Width> IsEmpty for Interval<B> {
    /// Returns true exactly when the interval has no members: the lower bound is above the upper.
    ///
    /// ```
    /// use intervallum::proved::examples::*;
    ///
    /// fn main() -> Result<(), std::boxed::Box<dyn std::error::Error>> {
    ///     let alloc = Global;
    ///     assert!(Interval::new(8i32, 3).is_empty() && !Interval::new(3i32, 3).is_empty());
    ///     Ok(())
    /// }
    /// ```
    ///
    /// # Proved
    ///
    /// True exactly when there is no member, which is when the bounds cross; after false there is one.
    ///
    /// ```text
    /// ensures members { IsTrue result ↔ HasNone (IsBetween self.now) }
    /// ensures filled { ¬ (IsTrue result) → HasSome (IsBetween self.now) }
    /// ensures crossed { IsTrue result ↔ IsCrossed self.now }
    /// ```
    ///
    /// Words: [`HasNone`](crate::definitions#HasNone), [`IsBetween`](crate::definitions#IsBetween), [`HasSome`](crate::definitions#HasSome), [`IsCrossed`](crate::definitions#IsCrossed).
    fn is_empty(&self) -> bool {
        self.lb > self.ub
    }
}

/// Proved, with these words of the trait:
///
/// ```text
/// members = { IsBetween }
/// ```
///
/// Words: [`IsBetween`](crate::definitions#IsBetween).
impl<B: Width> IsSingleton for Interval<B> {
    /// Returns true exactly when the interval has one member: the bounds are equal.
    ///
    /// ```
    /// use intervallum::proved::examples::*;
    ///
    /// fn main() -> Result<(), std::boxed::Box<dyn std::error::Error>> {
    ///     let alloc = Global;
    ///     assert!(Interval::new(5i32, 5).is_singleton());
    ///     assert!(!Interval::new(5i32, 6).is_singleton());
    ///     Ok(())
    /// }
    /// ```
    ///
    /// # Proved
    ///
    /// True exactly when there is one member and no other, which is when the bounds are equal.
    ///
    /// ```text
    /// ensures members { IsTrue result ↔ ((x : ℤ) × SameMembers (IsBetween self.now) (Only x)) }
    /// ensures bounds { IsTrue result ↔ (self.now.0 ≡ self.now.1) }
    /// ```
    ///
    /// Words: [`SameMembers`](crate::definitions#SameMembers), [`IsBetween`](crate::definitions#IsBetween), [`Only`](crate::definitions#Only).
    fn is_singleton(&self) -> bool {
        self.lb == self.ub
    }
}

impl<B: Width> Contains for Interval<B> {
    /// Returns true exactly when `item` is a member. It may be any value of its type, even one
    /// outside the range.
    ///
    /// ```
    /// use intervallum::proved::examples::*;
    ///
    /// fn main() -> Result<(), std::boxed::Box<dyn std::error::Error>> {
    ///     let alloc = Global;
    ///     assert!(!Interval::<u8>::whole().contains(&255));
    ///     Ok(())
    /// }
    /// ```
    ///
    /// # Proved
    ///
    /// What [`Contains::contains`] says, by the words of the type.
    fn contains(&self, item: &B) -> bool {
        self.lb <= *item && *item <= self.ub
    }
}
