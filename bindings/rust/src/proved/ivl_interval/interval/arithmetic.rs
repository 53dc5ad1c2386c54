// Written by bindings/rust/extract from crates/ivl_interval/src/interval/arithmetic.rt.
//! Sums, differences and products of intervals, and of an interval with a value.
//!
//! Each operand is owned or borrowed. The caller must ensure that the results of each call are in
//! the range: check with `fits_add`, `fits_sub` and `fits_mul`. With an empty operand this always
//! holds, and the result is empty. The value itself may be outside the range: `[1..5] + (-128i8)`
//! is allowed.

#[allow(unused_imports)]
use crate::rattle::prelude::*;
use crate::proved::ivl_interval::interval::Interval;
use crate::proved::ivl_interval::ops::{Empty, IsEmpty, Range};
use crate::proved::ivl_interval::width::Width;
use crate::rattle::std::ops::{Add, Mul, Sub};

/// The sums of a member of each.
fn sums<B: Width>(a: Interval<B>, b: Interval<B>) -> Interval<B> {
    if a.is_empty() || b.is_empty() {
        return Interval::empty();
    }
    Interval::new(sum(a.lb, b.lb), sum(a.ub, b.ub))
}

/// The sums of a member and the value.
fn sums_with<B: Width>(a: Interval<B>, x: B) -> Interval<B> {
    if a.is_empty() {
        return a;
    }
    Interval::new(sum(a.lb, x), sum(a.ub, x))
}

fn sum<B: Width>(x: B, y: B) -> B {
    x.add_in_range(y)
}

/// The differences of a member of each.
fn differences<B: Width>(a: Interval<B>, b: Interval<B>) -> Interval<B> {
    if a.is_empty() || b.is_empty() {
        return Interval::empty();
    }
    Interval::new(difference(a.lb, b.ub), difference(a.ub, b.lb))
}

/// The differences of a member and the value.
fn differences_with<B: Width>(a: Interval<B>, x: B) -> Interval<B> {
    if a.is_empty() {
        return a;
    }
    Interval::new(difference(a.lb, x), difference(a.ub, x))
}

fn difference<B: Width>(x: B, y: B) -> B {
    x.sub_in_range(y)
}

/// The least interval that holds the products of a member of each. Every product lies between two
/// of those of the bounds, whatever the signs are.
fn products<B: Width>(a: Interval<B>, b: Interval<B>) -> Interval<B> {
    if a.is_empty() || b.is_empty() {
        return Interval::empty();
    }
    let low_low = product(a.lb, b.lb);
    let low_high = product(a.lb, b.ub);
    let high_low = product(a.ub, b.lb);
    let high_high = product(a.ub, b.ub);
    let least = low_low.min(low_high).min(high_low.min(high_high));
    let greatest = low_low.max(low_high).max(high_low.max(high_high));
    Interval::new(least, greatest)
}

/// The least interval that holds the products of a member and the value.
fn products_with<B: Width>(a: Interval<B>, x: B) -> Interval<B> {
    if a.is_empty() {
        return a;
    }
    let low = product(a.lb, x);
    let high = product(a.ub, x);
    Interval::new(low.min(high), low.max(high))
}

fn product<B: Width>(x: B, y: B) -> B {
    x.mul_in_range(y)
}

/// Proved, with these words of the trait:
///
/// The members are exactly the sums of a member of each interval.
///
/// ```text
/// can_add = { λ a b. IsSubset (Sums (IsBetween a) (IsBetween b)) (IsBetween B.whole) }
/// add_gives = { λ a b r. SameMembers (IsBetween r) (Sums (IsBetween a) (IsBetween b)) }
/// ```
///
/// Words: [`IsSubset`](crate::definitions#IsSubset), [`Sums`](crate::definitions#Sums), [`IsBetween`](crate::definitions#IsBetween), [`SameMembers`](crate::definitions#SameMembers).
impl<B: Width> Add<Interval<B>> for Interval<B> {
    type Output = Interval<B>;

    /// Returns exactly the sums of a member of `self` and a member of `rhs`. The caller must ensure
    /// that the sums are in the range. Check with `fits_add`.
    ///
    /// ```
    /// use intervallum::proved::examples::*;
    ///
    /// fn main() -> Result<(), std::boxed::Box<dyn std::error::Error>> {
    ///     let alloc = Global;
    ///     let (a, b) = (Interval::new(1i32, 2), Interval::new(10, 20));
    ///     assert!(a.fits_add(&b));
    ///     assert_eq!(a + b, Interval::new(11, 22));
    ///     Ok(())
    /// }
    /// ```
    #[cfg_attr(debug_assertions, track_caller)]
    fn add(self, rhs: Interval<B>) -> Interval<B> {
        debug_assert!({ #[allow(unused_imports)] use crate::proved::ivl_interval::ops::*; self.fits_add(&rhs) }, "{}", "the condition of `add` is broken: self.fits_add(&rhs)");
        sums(self, rhs)
    }
}

/// Proved, with these words of the trait:
///
/// The members are exactly the sums of a member of each interval.
///
/// ```text
/// can_add = { λ a b. IsSubset (Sums (IsBetween a) (IsBetween b.now)) (IsBetween B.whole) }
/// add_gives = { λ a b r. SameMembers (IsBetween r) (Sums (IsBetween a) (IsBetween b.now)) }
/// ```
///
/// Words: [`IsSubset`](crate::definitions#IsSubset), [`Sums`](crate::definitions#Sums), [`IsBetween`](crate::definitions#IsBetween), [`SameMembers`](crate::definitions#SameMembers).
impl<B: Width> Add<&Interval<B>> for Interval<B> {
    type Output = Interval<B>;

    /// Returns exactly the sums of a member of `self` and a member of `rhs`. The caller must ensure
    /// that the sums are in the range. Check with `fits_add`.
    #[cfg_attr(debug_assertions, track_caller)]
    fn add(self, rhs: &Interval<B>) -> Interval<B> {
        debug_assert!({ #[allow(unused_imports)] use crate::proved::ivl_interval::ops::*; self.fits_add(rhs) }, "{}", "the condition of `add` is broken: self.fits_add(rhs)");
        sums(self, *rhs)
    }
}

/// Proved, with these words of the trait:
///
/// The members are exactly the sums of a member of each interval.
///
/// ```text
/// can_add = { λ a b. IsSubset (Sums (IsBetween a.now) (IsBetween b)) (IsBetween B.whole) }
/// add_gives = { λ a b r. SameMembers (IsBetween r) (Sums (IsBetween a.now) (IsBetween b)) }
/// ```
///
/// Words: [`IsSubset`](crate::definitions#IsSubset), [`Sums`](crate::definitions#Sums), [`IsBetween`](crate::definitions#IsBetween), [`SameMembers`](crate::definitions#SameMembers).
impl<B: Width> Add<Interval<B>> for &Interval<B> {
    type Output = Interval<B>;

    /// Returns exactly the sums of a member of `self` and a member of `rhs`. The caller must ensure
    /// that the sums are in the range. Check with `fits_add`.
    #[cfg_attr(debug_assertions, track_caller)]
    fn add(self, rhs: Interval<B>) -> Interval<B> {
        debug_assert!({ #[allow(unused_imports)] use crate::proved::ivl_interval::ops::*; self.fits_add(&rhs) }, "{}", "the condition of `add` is broken: self.fits_add(&rhs)");
        sums(*self, rhs)
    }
}

/// Proved, with these words of the trait:
///
/// The members are exactly the sums of a member of each interval.
///
/// ```text
/// can_add = { λ a b. IsSubset (Sums (IsBetween a.now) (IsBetween b.now)) (IsBetween B.whole) }
/// add_gives = { λ a b r. SameMembers (IsBetween r) (Sums (IsBetween a.now) (IsBetween b.now)) }
/// ```
///
/// Words: [`IsSubset`](crate::definitions#IsSubset), [`Sums`](crate::definitions#Sums), [`IsBetween`](crate::definitions#IsBetween), [`SameMembers`](crate::definitions#SameMembers).
impl<B: Width> Add<&Interval<B>> for &Interval<B> {
    type Output = Interval<B>;

    /// Returns exactly the sums of a member of `self` and a member of `rhs`. The caller must ensure
    /// that the sums are in the range. Check with `fits_add`.
    #[cfg_attr(debug_assertions, track_caller)]
    fn add(self, rhs: &Interval<B>) -> Interval<B> {
        debug_assert!({ #[allow(unused_imports)] use crate::proved::ivl_interval::ops::*; self.fits_add(rhs) }, "{}", "the condition of `add` is broken: self.fits_add(rhs)");
        sums(*self, *rhs)
    }
}

/// Proved, with these words of the trait:
///
/// The members are exactly the sums of a member and the value.
///
/// ```text
/// can_add = { λ a x. IsSubset (Sums (IsBetween a) (Only (B.value x))) (IsBetween B.whole) }
/// add_gives = { λ a x r. SameMembers (IsBetween r) (Sums (IsBetween a) (Only (B.value x))) }
/// ```
///
/// Words: [`IsSubset`](crate::definitions#IsSubset), [`Sums`](crate::definitions#Sums), [`IsBetween`](crate::definitions#IsBetween), [`Only`](crate::definitions#Only), [`SameMembers`](crate::definitions#SameMembers).
impl<B: Width> Add<B> for Interval<B> {
    type Output = Interval<B>;

    /// Returns exactly the sums of a member and the value. The caller must ensure that the sums are
    /// in the range. Check with `fits_add`.
    ///
    /// ```
    /// use intervallum::proved::examples::*;
    ///
    /// fn main() -> Result<(), std::boxed::Box<dyn std::error::Error>> {
    ///     let alloc = Global;
    ///     let a = Interval::new(1i32, 2);
    ///     assert!(a.fits_add(&3));
    ///     assert_eq!(a + 3, Interval::new(4, 5));
    ///     Ok(())
    /// }
    /// ```
    #[cfg_attr(debug_assertions, track_caller)]
    fn add(self, rhs: B) -> Interval<B> {
        debug_assert!({ #[allow(unused_imports)] use crate::proved::ivl_interval::ops::*; self.fits_add(&rhs) }, "{}", "the condition of `add` is broken: self.fits_add(&rhs)");
        sums_with(self, rhs)
    }
}

/// Proved, with these words of the trait:
///
/// The members are exactly the sums of a member and the value.
///
/// ```text
/// can_add = { λ a x. IsSubset (Sums (IsBetween a) (Only (B.value x.now))) (IsBetween B.whole) }
/// add_gives = { λ a x r. SameMembers (IsBetween r) (Sums (IsBetween a) (Only (B.value x.now))) }
/// ```
///
/// Words: [`IsSubset`](crate::definitions#IsSubset), [`Sums`](crate::definitions#Sums), [`IsBetween`](crate::definitions#IsBetween), [`Only`](crate::definitions#Only), [`SameMembers`](crate::definitions#SameMembers).
impl<B: Width> Add<&B> for Interval<B> {
    type Output = Interval<B>;

    /// Returns exactly the sums of a member and the value. The caller must ensure that the sums are
    /// in the range. Check with `fits_add`.
    #[cfg_attr(debug_assertions, track_caller)]
    fn add(self, rhs: &B) -> Interval<B> {
        debug_assert!({ #[allow(unused_imports)] use crate::proved::ivl_interval::ops::*; self.fits_add(rhs) }, "{}", "the condition of `add` is broken: self.fits_add(rhs)");
        sums_with(self, *rhs)
    }
}

/// Proved, with these words of the trait:
///
/// The members are exactly the sums of a member and the value.
///
/// ```text
/// can_add = { λ a x. IsSubset (Sums (IsBetween a.now) (Only (B.value x))) (IsBetween B.whole) }
/// add_gives = { λ a x r. SameMembers (IsBetween r) (Sums (IsBetween a.now) (Only (B.value x))) }
/// ```
///
/// Words: [`IsSubset`](crate::definitions#IsSubset), [`Sums`](crate::definitions#Sums), [`IsBetween`](crate::definitions#IsBetween), [`Only`](crate::definitions#Only), [`SameMembers`](crate::definitions#SameMembers).
impl<B: Width> Add<B> for &Interval<B> {
    type Output = Interval<B>;

    /// Returns exactly the sums of a member and the value. The caller must ensure that the sums are
    /// in the range. Check with `fits_add`.
    #[cfg_attr(debug_assertions, track_caller)]
    fn add(self, rhs: B) -> Interval<B> {
        debug_assert!({ #[allow(unused_imports)] use crate::proved::ivl_interval::ops::*; self.fits_add(&rhs) }, "{}", "the condition of `add` is broken: self.fits_add(&rhs)");
        sums_with(*self, rhs)
    }
}

/// Proved, with these words of the trait:
///
/// The members are exactly the sums of a member and the value.
///
/// ```text
/// can_add = { λ a x. IsSubset (Sums (IsBetween a.now) (Only (B.value x.now))) (IsBetween B.whole) }
/// add_gives = { λ a x r. SameMembers (IsBetween r) (Sums (IsBetween a.now) (Only (B.value x.now))) }
/// ```
///
/// Words: [`IsSubset`](crate::definitions#IsSubset), [`Sums`](crate::definitions#Sums), [`IsBetween`](crate::definitions#IsBetween), [`Only`](crate::definitions#Only), [`SameMembers`](crate::definitions#SameMembers).
impl<B: Width> Add<&B> for &Interval<B> {
    type Output = Interval<B>;

    /// Returns exactly the sums of a member and the value. The caller must ensure that the sums are
    /// in the range. Check with `fits_add`.
    #[cfg_attr(debug_assertions, track_caller)]
    fn add(self, rhs: &B) -> Interval<B> {
        debug_assert!({ #[allow(unused_imports)] use crate::proved::ivl_interval::ops::*; self.fits_add(rhs) }, "{}", "the condition of `add` is broken: self.fits_add(rhs)");
        sums_with(*self, *rhs)
    }
}

/// Proved, with these words of the trait:
///
/// The members are exactly the differences of a member of `self` and one of `rhs`.
///
/// ```text
/// can_sub = { λ a b. IsSubset (Differences (IsBetween a) (IsBetween b)) (IsBetween B.whole) }
/// sub_gives = { λ a b r. SameMembers (IsBetween r) (Differences (IsBetween a) (IsBetween b)) }
/// ```
///
/// Words: [`IsSubset`](crate::definitions#IsSubset), [`Differences`](crate::definitions#Differences), [`IsBetween`](crate::definitions#IsBetween), [`SameMembers`](crate::definitions#SameMembers).
impl<B: Width> Sub<Interval<B>> for Interval<B> {
    type Output = Interval<B>;

    /// Returns exactly the differences of a member of `self` and a member of `rhs`. The caller must
    /// ensure that the differences are in the range. Check with `fits_sub`.
    ///
    /// ```
    /// use intervallum::proved::examples::*;
    ///
    /// fn main() -> Result<(), std::boxed::Box<dyn std::error::Error>> {
    ///     let alloc = Global;
    ///     let (a, b) = (Interval::new(1i32, 2), Interval::new(10, 20));
    ///     assert!(a.fits_sub(&b));
    ///     assert_eq!(a - b, Interval::new(-19, -8));
    ///     Ok(())
    /// }
    /// ```
    #[cfg_attr(debug_assertions, track_caller)]
    fn sub(self, rhs: Interval<B>) -> Interval<B> {
        debug_assert!({ #[allow(unused_imports)] use crate::proved::ivl_interval::ops::*; self.fits_sub(&rhs) }, "{}", "the condition of `sub` is broken: self.fits_sub(&rhs)");
        differences(self, rhs)
    }
}

/// Proved, with these words of the trait:
///
/// The members are exactly the differences of a member of `self` and one of `rhs`.
///
/// ```text
/// can_sub = { λ a b. IsSubset (Differences (IsBetween a) (IsBetween b.now)) (IsBetween B.whole) }
/// sub_gives = { λ a b r. SameMembers (IsBetween r) (Differences (IsBetween a) (IsBetween b.now)) }
/// ```
///
/// Words: [`IsSubset`](crate::definitions#IsSubset), [`Differences`](crate::definitions#Differences), [`IsBetween`](crate::definitions#IsBetween), [`SameMembers`](crate::definitions#SameMembers).
impl<B: Width> Sub<&Interval<B>> for Interval<B> {
    type Output = Interval<B>;

    /// Returns exactly the differences of a member of `self` and a member of `rhs`. The caller must
    /// ensure that the differences are in the range. Check with `fits_sub`.
    #[cfg_attr(debug_assertions, track_caller)]
    fn sub(self, rhs: &Interval<B>) -> Interval<B> {
        debug_assert!({ #[allow(unused_imports)] use crate::proved::ivl_interval::ops::*; self.fits_sub(rhs) }, "{}", "the condition of `sub` is broken: self.fits_sub(rhs)");
        differences(self, *rhs)
    }
}

/// Proved, with these words of the trait:
///
/// The members are exactly the differences of a member of `self` and one of `rhs`.
///
/// ```text
/// can_sub = { λ a b. IsSubset (Differences (IsBetween a.now) (IsBetween b)) (IsBetween B.whole) }
/// sub_gives = { λ a b r. SameMembers (IsBetween r) (Differences (IsBetween a.now) (IsBetween b)) }
/// ```
///
/// Words: [`IsSubset`](crate::definitions#IsSubset), [`Differences`](crate::definitions#Differences), [`IsBetween`](crate::definitions#IsBetween), [`SameMembers`](crate::definitions#SameMembers).
impl<B: Width> Sub<Interval<B>> for &Interval<B> {
    type Output = Interval<B>;

    /// Returns exactly the differences of a member of `self` and a member of `rhs`. The caller must
    /// ensure that the differences are in the range. Check with `fits_sub`.
    #[cfg_attr(debug_assertions, track_caller)]
    fn sub(self, rhs: Interval<B>) -> Interval<B> {
        debug_assert!({ #[allow(unused_imports)] use crate::proved::ivl_interval::ops::*; self.fits_sub(&rhs) }, "{}", "the condition of `sub` is broken: self.fits_sub(&rhs)");
        differences(*self, rhs)
    }
}

/// Proved, with these words of the trait:
///
/// The members are exactly the differences of a member of `self` and one of `rhs`.
///
/// ```text
/// can_sub = { λ a b. IsSubset (Differences (IsBetween a.now) (IsBetween b.now)) (IsBetween B.whole) }
/// sub_gives = { λ a b r. SameMembers (IsBetween r) (Differences (IsBetween a.now) (IsBetween b.now)) }
/// ```
///
/// Words: [`IsSubset`](crate::definitions#IsSubset), [`Differences`](crate::definitions#Differences), [`IsBetween`](crate::definitions#IsBetween), [`SameMembers`](crate::definitions#SameMembers).
impl<B: Width> Sub<&Interval<B>> for &Interval<B> {
    type Output = Interval<B>;

    /// Returns exactly the differences of a member of `self` and a member of `rhs`. The caller must
    /// ensure that the differences are in the range. Check with `fits_sub`.
    #[cfg_attr(debug_assertions, track_caller)]
    fn sub(self, rhs: &Interval<B>) -> Interval<B> {
        debug_assert!({ #[allow(unused_imports)] use crate::proved::ivl_interval::ops::*; self.fits_sub(rhs) }, "{}", "the condition of `sub` is broken: self.fits_sub(rhs)");
        differences(*self, *rhs)
    }
}

/// Proved, with these words of the trait:
///
/// The members are exactly the differences of a member and the value.
///
/// ```text
/// can_sub = { λ a x. IsSubset (Differences (IsBetween a) (Only (B.value x))) (IsBetween B.whole) }
/// sub_gives = { λ a x r. SameMembers (IsBetween r) (Differences (IsBetween a) (Only (B.value x))) }
/// ```
///
/// Words: [`IsSubset`](crate::definitions#IsSubset), [`Differences`](crate::definitions#Differences), [`IsBetween`](crate::definitions#IsBetween), [`Only`](crate::definitions#Only), [`SameMembers`](crate::definitions#SameMembers).
impl<B: Width> Sub<B> for Interval<B> {
    type Output = Interval<B>;

    /// Returns exactly the differences of a member and the value. The caller must ensure that the
    /// differences are in the range. Check with `fits_sub`.
    ///
    /// ```
    /// use intervallum::proved::examples::*;
    ///
    /// fn main() -> Result<(), std::boxed::Box<dyn std::error::Error>> {
    ///     let alloc = Global;
    ///     let a = Interval::new(1i32, 2);
    ///     assert!(a.fits_sub(&3));
    ///     assert_eq!(a - 3, Interval::new(-2, -1));
    ///     Ok(())
    /// }
    /// ```
    #[cfg_attr(debug_assertions, track_caller)]
    fn sub(self, rhs: B) -> Interval<B> {
        debug_assert!({ #[allow(unused_imports)] use crate::proved::ivl_interval::ops::*; self.fits_sub(&rhs) }, "{}", "the condition of `sub` is broken: self.fits_sub(&rhs)");
        differences_with(self, rhs)
    }
}

/// Proved, with these words of the trait:
///
/// The members are exactly the differences of a member and the value.
///
/// ```text
/// can_sub = { λ a x. IsSubset (Differences (IsBetween a) (Only (B.value x.now))) (IsBetween B.whole) }
/// sub_gives = { λ a x r. SameMembers (IsBetween r) (Differences (IsBetween a) (Only (B.value x.now))) }
/// ```
///
/// Words: [`IsSubset`](crate::definitions#IsSubset), [`Differences`](crate::definitions#Differences), [`IsBetween`](crate::definitions#IsBetween), [`Only`](crate::definitions#Only), [`SameMembers`](crate::definitions#SameMembers).
impl<B: Width> Sub<&B> for Interval<B> {
    type Output = Interval<B>;

    /// Returns exactly the differences of a member and the value. The caller must ensure that the
    /// differences are in the range. Check with `fits_sub`.
    #[cfg_attr(debug_assertions, track_caller)]
    fn sub(self, rhs: &B) -> Interval<B> {
        debug_assert!({ #[allow(unused_imports)] use crate::proved::ivl_interval::ops::*; self.fits_sub(rhs) }, "{}", "the condition of `sub` is broken: self.fits_sub(rhs)");
        differences_with(self, *rhs)
    }
}

/// Proved, with these words of the trait:
///
/// The members are exactly the differences of a member and the value.
///
/// ```text
/// can_sub = { λ a x. IsSubset (Differences (IsBetween a.now) (Only (B.value x))) (IsBetween B.whole) }
/// sub_gives = { λ a x r. SameMembers (IsBetween r) (Differences (IsBetween a.now) (Only (B.value x))) }
/// ```
///
/// Words: [`IsSubset`](crate::definitions#IsSubset), [`Differences`](crate::definitions#Differences), [`IsBetween`](crate::definitions#IsBetween), [`Only`](crate::definitions#Only), [`SameMembers`](crate::definitions#SameMembers).
impl<B: Width> Sub<B> for &Interval<B> {
    type Output = Interval<B>;

    /// Returns exactly the differences of a member and the value. The caller must ensure that the
    /// differences are in the range. Check with `fits_sub`.
    #[cfg_attr(debug_assertions, track_caller)]
    fn sub(self, rhs: B) -> Interval<B> {
        debug_assert!({ #[allow(unused_imports)] use crate::proved::ivl_interval::ops::*; self.fits_sub(&rhs) }, "{}", "the condition of `sub` is broken: self.fits_sub(&rhs)");
        differences_with(*self, rhs)
    }
}

/// Proved, with these words of the trait:
///
/// The members are exactly the differences of a member and the value.
///
/// ```text
/// can_sub = { λ a x. IsSubset (Differences (IsBetween a.now) (Only (B.value x.now))) (IsBetween B.whole) }
/// sub_gives = { λ a x r. SameMembers (IsBetween r) (Differences (IsBetween a.now) (Only (B.value x.now))) }
/// ```
///
/// Words: [`IsSubset`](crate::definitions#IsSubset), [`Differences`](crate::definitions#Differences), [`IsBetween`](crate::definitions#IsBetween), [`Only`](crate::definitions#Only), [`SameMembers`](crate::definitions#SameMembers).
impl<B: Width> Sub<&B> for &Interval<B> {
    type Output = Interval<B>;

    /// Returns exactly the differences of a member and the value. The caller must ensure that the
    /// differences are in the range. Check with `fits_sub`.
    #[cfg_attr(debug_assertions, track_caller)]
    fn sub(self, rhs: &B) -> Interval<B> {
        debug_assert!({ #[allow(unused_imports)] use crate::proved::ivl_interval::ops::*; self.fits_sub(rhs) }, "{}", "the condition of `sub` is broken: self.fits_sub(rhs)");
        differences_with(*self, *rhs)
    }
}

/// Proved, with these words of the trait:
///
/// The result is the least interval that holds the products of a member of each interval.
///
/// ```text
/// can_mul = { λ a b. IsSubset (ExactProducts (IsBetween a) (IsBetween b)) (IsBetween B.whole) }
/// mul_gives = { λ a b r. IsHullOf r (ExactProducts (IsBetween a) (IsBetween b)) }
/// ```
///
/// Words: [`IsSubset`](crate::definitions#IsSubset), [`ExactProducts`](crate::definitions#ExactProducts), [`IsBetween`](crate::definitions#IsBetween), [`IsHullOf`](crate::definitions#IsHullOf).
impl<B: Width> Mul<Interval<B>> for Interval<B> {
    type Output = Interval<B>;

    /// Returns the least interval that holds the products of a member of each. The caller must
    /// ensure that the products are in the range. Check with `fits_mul`.
    ///
    /// ```
    /// use intervallum::proved::examples::*;
    ///
    /// fn main() -> Result<(), std::boxed::Box<dyn std::error::Error>> {
    ///     let alloc = Global;
    ///     let (a, b) = (Interval::new(1i32, 2), Interval::new(10, 20));
    ///     assert!(a.fits_mul(&b));
    ///     assert_eq!(a * b, Interval::new(10, 40));
    ///     Ok(())
    /// }
    /// ```
    #[cfg_attr(debug_assertions, track_caller)]
    fn mul(self, rhs: Interval<B>) -> Interval<B> {
        debug_assert!({ #[allow(unused_imports)] use crate::proved::ivl_interval::ops::*; self.fits_mul(&rhs) }, "{}", "the condition of `mul` is broken: self.fits_mul(&rhs)");
        products(self, rhs)
    }
}

/// Proved, with these words of the trait:
///
/// The result is the least interval that holds the products of a member of each interval.
///
/// ```text
/// can_mul = { λ a b. IsSubset (ExactProducts (IsBetween a) (IsBetween b.now)) (IsBetween B.whole) }
/// mul_gives = { λ a b r. IsHullOf r (ExactProducts (IsBetween a) (IsBetween b.now)) }
/// ```
///
/// Words: [`IsSubset`](crate::definitions#IsSubset), [`ExactProducts`](crate::definitions#ExactProducts), [`IsBetween`](crate::definitions#IsBetween), [`IsHullOf`](crate::definitions#IsHullOf).
impl<B: Width> Mul<&Interval<B>> for Interval<B> {
    type Output = Interval<B>;

    /// Returns the least interval that holds the products of a member of each. The caller must
    /// ensure that the products are in the range. Check with `fits_mul`.
    #[cfg_attr(debug_assertions, track_caller)]
    fn mul(self, rhs: &Interval<B>) -> Interval<B> {
        debug_assert!({ #[allow(unused_imports)] use crate::proved::ivl_interval::ops::*; self.fits_mul(rhs) }, "{}", "the condition of `mul` is broken: self.fits_mul(rhs)");
        products(self, *rhs)
    }
}

/// Proved, with these words of the trait:
///
/// The result is the least interval that holds the products of a member of each interval.
///
/// ```text
/// can_mul = { λ a b. IsSubset (ExactProducts (IsBetween a.now) (IsBetween b)) (IsBetween B.whole) }
/// mul_gives = { λ a b r. IsHullOf r (ExactProducts (IsBetween a.now) (IsBetween b)) }
/// ```
///
/// Words: [`IsSubset`](crate::definitions#IsSubset), [`ExactProducts`](crate::definitions#ExactProducts), [`IsBetween`](crate::definitions#IsBetween), [`IsHullOf`](crate::definitions#IsHullOf).
impl<B: Width> Mul<Interval<B>> for &Interval<B> {
    type Output = Interval<B>;

    /// Returns the least interval that holds the products of a member of each. The caller must
    /// ensure that the products are in the range. Check with `fits_mul`.
    #[cfg_attr(debug_assertions, track_caller)]
    fn mul(self, rhs: Interval<B>) -> Interval<B> {
        debug_assert!({ #[allow(unused_imports)] use crate::proved::ivl_interval::ops::*; self.fits_mul(&rhs) }, "{}", "the condition of `mul` is broken: self.fits_mul(&rhs)");
        products(*self, rhs)
    }
}

/// Proved, with these words of the trait:
///
/// The result is the least interval that holds the products of a member of each interval.
///
/// ```text
/// can_mul = { λ a b. IsSubset (ExactProducts (IsBetween a.now) (IsBetween b.now)) (IsBetween B.whole) }
/// mul_gives = { λ a b r. IsHullOf r (ExactProducts (IsBetween a.now) (IsBetween b.now)) }
/// ```
///
/// Words: [`IsSubset`](crate::definitions#IsSubset), [`ExactProducts`](crate::definitions#ExactProducts), [`IsBetween`](crate::definitions#IsBetween), [`IsHullOf`](crate::definitions#IsHullOf).
impl<B: Width> Mul<&Interval<B>> for &Interval<B> {
    type Output = Interval<B>;

    /// Returns the least interval that holds the products of a member of each. The caller must
    /// ensure that the products are in the range. Check with `fits_mul`.
    #[cfg_attr(debug_assertions, track_caller)]
    fn mul(self, rhs: &Interval<B>) -> Interval<B> {
        debug_assert!({ #[allow(unused_imports)] use crate::proved::ivl_interval::ops::*; self.fits_mul(rhs) }, "{}", "the condition of `mul` is broken: self.fits_mul(rhs)");
        products(*self, *rhs)
    }
}

/// Proved, with these words of the trait:
///
/// The result is the least interval that holds the products of a member and the value.
///
/// ```text
/// can_mul = { λ a x. IsSubset (ExactProducts (IsBetween a) (Only (B.value x))) (IsBetween B.whole) }
/// mul_gives = { λ a x r. IsHullOf r (ExactProducts (IsBetween a) (Only (B.value x))) }
/// ```
///
/// Words: [`IsSubset`](crate::definitions#IsSubset), [`ExactProducts`](crate::definitions#ExactProducts), [`IsBetween`](crate::definitions#IsBetween), [`Only`](crate::definitions#Only), [`IsHullOf`](crate::definitions#IsHullOf).
impl<B: Width> Mul<B> for Interval<B> {
    type Output = Interval<B>;

    /// Returns the least interval that holds the products of a member and the value. The caller
    /// must ensure that the products are in the range. Check with `fits_mul`.
    ///
    /// In the original, a negative value crosses the bounds of an interval of several members.
    ///
    /// ```
    /// use intervallum::proved::examples::*;
    ///
    /// fn main() -> Result<(), std::boxed::Box<dyn std::error::Error>> {
    ///     let alloc = Global;
    ///     let a = Interval::new(1i32, 2);
    ///     assert!(a.fits_mul(&-3));
    ///     assert_eq!(a * -3, Interval::new(-6, -3));
    ///     Ok(())
    /// }
    /// ```
    #[cfg_attr(debug_assertions, track_caller)]
    fn mul(self, rhs: B) -> Interval<B> {
        debug_assert!({ #[allow(unused_imports)] use crate::proved::ivl_interval::ops::*; self.fits_mul(&rhs) }, "{}", "the condition of `mul` is broken: self.fits_mul(&rhs)");
        products_with(self, rhs)
    }
}

/// Proved, with these words of the trait:
///
/// The result is the least interval that holds the products of a member and the value.
///
/// ```text
/// can_mul = { λ a x. IsSubset (ExactProducts (IsBetween a) (Only (B.value x.now))) (IsBetween B.whole) }
/// mul_gives = { λ a x r. IsHullOf r (ExactProducts (IsBetween a) (Only (B.value x.now))) }
/// ```
///
/// Words: [`IsSubset`](crate::definitions#IsSubset), [`ExactProducts`](crate::definitions#ExactProducts), [`IsBetween`](crate::definitions#IsBetween), [`Only`](crate::definitions#Only), [`IsHullOf`](crate::definitions#IsHullOf).
impl<B: Width> Mul<&B> for Interval<B> {
    type Output = Interval<B>;

    /// Returns the least interval that holds the products of a member and the value. The caller
    /// must ensure that the products are in the range. Check with `fits_mul`.
    #[cfg_attr(debug_assertions, track_caller)]
    fn mul(self, rhs: &B) -> Interval<B> {
        debug_assert!({ #[allow(unused_imports)] use crate::proved::ivl_interval::ops::*; self.fits_mul(rhs) }, "{}", "the condition of `mul` is broken: self.fits_mul(rhs)");
        products_with(self, *rhs)
    }
}

/// Proved, with these words of the trait:
///
/// The result is the least interval that holds the products of a member and the value.
///
/// ```text
/// can_mul = { λ a x. IsSubset (ExactProducts (IsBetween a.now) (Only (B.value x))) (IsBetween B.whole) }
/// mul_gives = { λ a x r. IsHullOf r (ExactProducts (IsBetween a.now) (Only (B.value x))) }
/// ```
///
/// Words: [`IsSubset`](crate::definitions#IsSubset), [`ExactProducts`](crate::definitions#ExactProducts), [`IsBetween`](crate::definitions#IsBetween), [`Only`](crate::definitions#Only), [`IsHullOf`](crate::definitions#IsHullOf).
impl<B: Width> Mul<B> for &Interval<B> {
    type Output = Interval<B>;

    /// Returns the least interval that holds the products of a member and the value. The caller
    /// must ensure that the products are in the range. Check with `fits_mul`.
    #[cfg_attr(debug_assertions, track_caller)]
    fn mul(self, rhs: B) -> Interval<B> {
        debug_assert!({ #[allow(unused_imports)] use crate::proved::ivl_interval::ops::*; self.fits_mul(&rhs) }, "{}", "the condition of `mul` is broken: self.fits_mul(&rhs)");
        products_with(*self, rhs)
    }
}

/// Proved, with these words of the trait:
///
/// The result is the least interval that holds the products of a member and the value.
///
/// ```text
/// can_mul = { λ a x. IsSubset (ExactProducts (IsBetween a.now) (Only (B.value x.now))) (IsBetween B.whole) }
/// mul_gives = { λ a x r. IsHullOf r (ExactProducts (IsBetween a.now) (Only (B.value x.now))) }
/// ```
///
/// Words: [`IsSubset`](crate::definitions#IsSubset), [`ExactProducts`](crate::definitions#ExactProducts), [`IsBetween`](crate::definitions#IsBetween), [`Only`](crate::definitions#Only), [`IsHullOf`](crate::definitions#IsHullOf).
impl<B: Width> Mul<&B> for &Interval<B> {
    type Output = Interval<B>;

    /// Returns the least interval that holds the products of a member and the value. The caller
    /// must ensure that the products are in the range. Check with `fits_mul`.
    #[cfg_attr(debug_assertions, track_caller)]
    fn mul(self, rhs: &B) -> Interval<B> {
        debug_assert!({ #[allow(unused_imports)] use crate::proved::ivl_interval::ops::*; self.fits_mul(rhs) }, "{}", "the condition of `mul` is broken: self.fits_mul(rhs)");
        products_with(*self, *rhs)
    }
}
