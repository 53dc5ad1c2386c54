// Written by bindings/rust/extract from crates/ivl_interval/src/interval/conversions.rt.
//! Conversions to an interval.

#[allow(unused_imports)]
use crate::rattle::prelude::*;
use crate::proved::ivl_interval::interval::Interval;
use crate::proved::ivl_interval::ops::{Empty, Range, Singleton, ToInterval};
use crate::proved::ivl_interval::width::Width;
use crate::rattle::std::ops::{RangeFrom, RangeInclusive, RangeToInclusive};

/// Proved, with these words of the trait:
///
/// ```text
/// can_convert = { λ _. ⊤ }
/// interval = { λ p. p }
/// ```
impl<B: Width> ToInterval<B> for Interval<B> {
    /// Returns the interval itself.
    ///
    /// ```
    /// use intervallum::proved::examples::*;
    ///
    /// fn main() -> Result<(), std::boxed::Box<dyn std::error::Error>> {
    ///     let alloc = Global;
    ///     let a = Interval::new(1i32, 5);
    ///     let same: Interval<i32> = a.to_interval();
    ///     assert_eq!(same, a);
    ///     Ok(())
    /// }
    /// ```
    ///
    /// # Proved
    ///
    /// The result is the interval itself.
    ///
    /// ```text
    /// ensures members { SameMembers (IsBetween result) (IsBetween self) }
    /// ensures bounds { self.0 ≤ℤ self.1 → result ≡ self }
    /// ensures value { result ≡ self }
    /// ```
    ///
    /// Words: [`SameMembers`](crate::definitions#SameMembers), [`IsBetween`](crate::definitions#IsBetween).
    #[cfg_attr(debug_assertions, track_caller)]
    fn to_interval(self) -> Interval<B> {
        self
    }
}

/// Proved, with these words of the trait:
///
/// ```text
/// can_convert = { λ bounds. IsInRange B.whole (B.value bounds.0, B.value bounds.1) }
/// interval = { λ bounds. (B.value bounds.0, B.value bounds.1) }
/// ```
///
/// Words: [`IsInRange`](crate::definitions#IsInRange).
impl<B: Width> ToInterval<B> for (B, B) {
    /// Returns the interval from the first bound to the second, which is empty if they cross. The
    /// caller must ensure `Interval::in_range(first, second)`.
    ///
    /// ```
    /// use intervallum::proved::examples::*;
    ///
    /// fn main() -> Result<(), std::boxed::Box<dyn std::error::Error>> {
    ///     let alloc = Global;
    ///     let pair: Interval<i32> = (1, 5).to_interval();
    ///     assert_eq!(pair, Interval::new(1, 5));
    ///     Ok(())
    /// }
    /// ```
    ///
    /// # Proved
    ///
    /// The members are exactly the numbers from the one bound to the other, which are the bounds of the result, even if they cross.
    ///
    /// ```text
    /// requires { IsInRange B.whole (B.value self.0, B.value self.1) }
    /// ensures members { SameMembers (IsBetween result) (IsBetween (B.value self.0, B.value self.1)) }
    /// ensures bounds { B.value self.0 ≤ℤ B.value self.1 → result ≡ (B.value self.0, B.value self.1) }
    /// ensures value { result ≡ (B.value self.0, B.value self.1) }
    /// ```
    ///
    /// Words: [`IsInRange`](crate::definitions#IsInRange), [`SameMembers`](crate::definitions#SameMembers), [`IsBetween`](crate::definitions#IsBetween).
    #[cfg_attr(debug_assertions, track_caller)]
    fn to_interval(self) -> Interval<B> {
        Interval::new(self.0, self.1)
    }
}

/// Proved, with these words of the trait:
///
/// ```text
/// can_convert = { λ _. ⊤ }
/// interval = { λ _. (pos 1, pos 0) }
/// ```
impl<B: Width> ToInterval<B> for () {
    /// Returns an empty interval.
    ///
    /// ```
    /// use intervallum::proved::examples::*;
    ///
    /// fn main() -> Result<(), std::boxed::Box<dyn std::error::Error>> {
    ///     let alloc = Global;
    ///     let none: Interval<i32> = ().to_interval();
    ///     assert!(none.is_empty());
    ///     Ok(())
    /// }
    /// ```
    ///
    /// # Proved
    ///
    /// The result has no member: its bounds cross.
    ///
    /// ```text
    /// ensures members { SameMembers (IsBetween result) (IsBetween (pos 1, pos 0)) }
    /// ensures bounds { pos 1 ≤ℤ pos 0 → result ≡ (pos 1, pos 0) }
    /// ensures crossed { IsCrossed result }
    /// ```
    ///
    /// Words: [`SameMembers`](crate::definitions#SameMembers), [`IsBetween`](crate::definitions#IsBetween), [`IsCrossed`](crate::definitions#IsCrossed).
    #[cfg_attr(debug_assertions, track_caller)]
    fn to_interval(self) -> Interval<B> {
        Interval::empty()
    }
}

/// Proved, with these words of the trait:
///
/// ```text
/// can_convert = { λ x. IsBetween B.whole (B.value x) }
/// interval = { λ x. (B.value x, B.value x) }
/// ```
///
/// Words: [`IsBetween`](crate::definitions#IsBetween).
impl<B: Width> ToInterval<B> for B {
    /// Returns the interval of the value alone. The caller must ensure that it is in the range.
    /// Check with `Interval::whole().contains(&value)`.
    ///
    /// ```
    /// use intervallum::proved::examples::*;
    ///
    /// fn main() -> Result<(), std::boxed::Box<dyn std::error::Error>> {
    ///     let alloc = Global;
    ///     let five: Interval<i32> = 5.to_interval();
    ///     assert_eq!(five, Interval::new(5, 5));
    ///     Ok(())
    /// }
    /// ```
    ///
    /// # Proved
    ///
    /// The only member is the value, which is both bounds.
    ///
    /// ```text
    /// requires { IsBetween B.whole (B.value self) }
    /// ensures members { SameMembers (IsBetween result) (IsBetween (B.value self, B.value self)) }
    /// ensures bounds { B.value self ≤ℤ B.value self → result ≡ (B.value self, B.value self) }
    /// ensures value { result ≡ (B.value self, B.value self) }
    /// ```
    ///
    /// Words: [`IsBetween`](crate::definitions#IsBetween), [`SameMembers`](crate::definitions#SameMembers).
    #[cfg_attr(debug_assertions, track_caller)]
    fn to_interval(self) -> Interval<B> {
        Interval::singleton(self)
    }
}

/// Proved, with these words of the trait:
///
/// ```text
/// can_convert = { λ range. IsInRange B.whole (B.value (range_inclusive_start range), B.value (range_inclusive_end range)) }
/// interval = { λ range. (B.value (range_inclusive_start range), B.value (range_inclusive_end range)) }
/// ```
///
/// Words: [`IsInRange`](crate::definitions#IsInRange).
impl<B: Width> ToInterval<B> for RangeInclusive<B> {
    /// Returns the interval from the start to the end of `a..=b`, which is empty if they cross. The
    /// caller must ensure `Interval::in_range(a, b)`.
    ///
    /// ```
    /// use intervallum::proved::examples::*;
    ///
    /// fn main() -> Result<(), std::boxed::Box<dyn std::error::Error>> {
    ///     let alloc = Global;
    ///     let crossed: Interval<i32> = (8..=3).to_interval();
    ///     assert!(crossed.is_empty());
    ///     Ok(())
    /// }
    /// ```
    ///
    /// # Proved
    ///
    /// The members are exactly the numbers from the start to the end, which are the bounds of the result, even if they cross.
    ///
    /// ```text
    /// requires { IsInRange B.whole (B.value (range_inclusive_start self), B.value (range_inclusive_end self)) }
    /// ensures members { SameMembers (IsBetween result) (IsBetween (B.value (range_inclusive_start self), B.value (range_inclusive_end self))) }
    /// ensures bounds { B.value (range_inclusive_start self) ≤ℤ B.value (range_inclusive_end self) → result ≡ (B.value (range_inclusive_start self), B.value (range_inclusive_end self)) }
    /// ensures value { result ≡ (B.value (range_inclusive_start self), B.value (range_inclusive_end self)) }
    /// ```
    ///
    /// Words: [`IsInRange`](crate::definitions#IsInRange), [`SameMembers`](crate::definitions#SameMembers), [`IsBetween`](crate::definitions#IsBetween).
    #[cfg_attr(debug_assertions, track_caller)]
    fn to_interval(self) -> Interval<B> {
        let (start, end) = self.into_inner();
        Interval::new(start, end)
    }
}

/// Proved, with these words of the trait:
///
/// ```text
/// can_convert = { λ range. IsBetween B.whole (B.value range.start) }
/// interval = { λ range. (B.value range.start, B.whole.1) }
/// ```
///
/// Words: [`IsBetween`](crate::definitions#IsBetween).
impl<B: Width> ToInterval<B> for RangeFrom<B> {
    /// Returns the interval from the start of `a..` to the greatest value of the range. The caller
    /// must ensure that the start is in the range. Check with `Interval::whole().contains(&start)`.
    ///
    /// ```
    /// use intervallum::proved::examples::*;
    ///
    /// fn main() -> Result<(), std::boxed::Box<dyn std::error::Error>> {
    ///     let alloc = Global;
    ///     let high: Interval<u8> = (250..).to_interval();
    ///     assert_eq!(high, Interval::new(250, 254));
    ///     Ok(())
    /// }
    /// ```
    ///
    /// # Proved
    ///
    /// The members are exactly the numbers from the start to the greatest of the range of the type, which are the bounds of the result.
    ///
    /// ```text
    /// requires { IsBetween B.whole (B.value self.start) }
    /// ensures members { SameMembers (IsBetween result) (IsBetween (B.value self.start, B.whole.1)) }
    /// ensures bounds { B.value self.start ≤ℤ B.whole.1 → result ≡ (B.value self.start, B.whole.1) }
    /// ensures value { result ≡ (B.value self.start, B.whole.1) }
    /// ```
    ///
    /// Words: [`IsBetween`](crate::definitions#IsBetween), [`SameMembers`](crate::definitions#SameMembers).
    #[cfg_attr(debug_assertions, track_caller)]
    fn to_interval(self) -> Interval<B> {
        Interval::new(self.start, B::max_value())
    }
}

/// Proved, with these words of the trait:
///
/// ```text
/// can_convert = { λ range. IsBetween B.whole (B.value range.end) }
/// interval = { λ range. (B.whole.0, B.value range.end) }
/// ```
///
/// Words: [`IsBetween`](crate::definitions#IsBetween).
impl<B: Width> ToInterval<B> for RangeToInclusive<B> {
    /// Returns the interval from the least value of the range to the end of `..=b`. The caller must
    /// ensure that the end is in the range. Check with `Interval::whole().contains(&end)`.
    ///
    /// ```
    /// use intervallum::proved::examples::*;
    ///
    /// fn main() -> Result<(), std::boxed::Box<dyn std::error::Error>> {
    ///     let alloc = Global;
    ///     let low: Interval<u8> = (..=5).to_interval();
    ///     assert_eq!(low, Interval::new(0, 5));
    ///     Ok(())
    /// }
    /// ```
    ///
    /// # Proved
    ///
    /// The members are exactly the numbers from the least of the range of the type to the end, which are the bounds of the result.
    ///
    /// ```text
    /// requires { IsBetween B.whole (B.value self.end) }
    /// ensures members { SameMembers (IsBetween result) (IsBetween (B.whole.0, B.value self.end)) }
    /// ensures bounds { B.whole.0 ≤ℤ B.value self.end → result ≡ (B.whole.0, B.value self.end) }
    /// ensures value { result ≡ (B.whole.0, B.value self.end) }
    /// ```
    ///
    /// Words: [`IsBetween`](crate::definitions#IsBetween), [`SameMembers`](crate::definitions#SameMembers).
    #[cfg_attr(debug_assertions, track_caller)]
    fn to_interval(self) -> Interval<B> {
        Interval::new(B::min_value(), self.end)
    }
}
