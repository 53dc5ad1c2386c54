// Written by bindings/rust/extract from crates/ivl_interval/src/interval.rt.
//! A closed interval between two bounds.

#[allow(unused_imports)]
use crate::rattle::prelude::*;
use crate::proved::ivl_interval::ops::IsEmpty;
use crate::proved::ivl_interval::width::Width;
use crate::rattle::std::alloc::AllocError;

mod arithmetic;
mod bounds;
mod conversions;
mod fits;
mod sets;
mod shrinks;
mod text;
mod values;

/// The integers from a lower to an upper bound, both included; empty if the bounds cross.
///
/// An interval is two bounds and nothing else: it is `Copy`, and each call takes a few steps and
/// does not allocate. All empty intervals are equal, whatever bounds they store. A contract sees
/// the pair of the numbers of the bounds.
///
/// ```
/// use intervallum::proved::examples::*;
///
/// fn main() -> Result<(), std::boxed::Box<dyn std::error::Error>> {
///     let alloc = Global;
///     let (a, b) = (Interval::new(1i32, 5), Interval::new(4, 9));
///     assert_eq!(a.intersection(&b), Interval::new(4, 5));
///     Ok(())
/// }
/// ```
#[derive(Clone, Copy, Debug)]
pub struct Interval<B: Width> {
    lb: B,
    ub: B,
}

impl<B: Width> Interval<B> {
    /// Returns true exactly when `new(lb, ub)` may be called: `lb` is not below the range and `ub`
    /// is not above it. The two may cross, so `in_range(8, 3)` is true, and `new(8, 3)` is empty.
    ///
    /// ```
    /// use intervallum::proved::examples::*;
    ///
    /// fn main() -> Result<(), std::boxed::Box<dyn std::error::Error>> {
    ///     let alloc = Global;
    ///     assert!(Interval::in_range(8u8, 3) && !Interval::in_range(0u8, 255));
    ///     Ok(())
    /// }
    /// ```
    ///
    /// # Proved
    ///
    /// True exactly when `lb` is not below the range and `ub` is not above it.
    ///
    /// ```text
    /// ensures { IsTrue result ↔ IsInRange B.whole (B.value lb, B.value ub) }
    /// ```
    ///
    /// Words: [`IsInRange`](crate::definitions#IsInRange).
    pub fn in_range(lb: B, ub: B) -> bool {
        lb >= B::min_value() && ub <= B::max_value()
    }

    /// Returns the stored lower bound, even if the interval is empty. So intervals can be sorted by
    /// it without a test for empty ones. For the least member, use `lower`.
    ///
    /// ```
    /// use intervallum::proved::examples::*;
    ///
    /// fn main() -> Result<(), std::boxed::Box<dyn std::error::Error>> {
    ///     let alloc = Global;
    ///     assert_eq!(Interval::new(8i32, 3).lower_bound(), 8);
    ///     Ok(())
    /// }
    /// ```
    ///
    /// # Proved
    ///
    /// The result is the lower bound, even of an empty interval.
    ///
    /// ```text
    /// ensures { B.value result ≡ self.now.0 }
    /// ```
    pub fn lower_bound(&self) -> B {
        self.lb
    }

    /// Returns the stored upper bound, even if the interval is empty. For the greatest member, use
    /// `upper`.
    ///
    /// ```
    /// use intervallum::proved::examples::*;
    ///
    /// fn main() -> Result<(), std::boxed::Box<dyn std::error::Error>> {
    ///     let alloc = Global;
    ///     assert_eq!(Interval::new(8i32, 3).upper_bound(), 3);
    ///     Ok(())
    /// }
    /// ```
    ///
    /// # Proved
    ///
    /// The result is the upper bound, even of an empty interval.
    ///
    /// ```text
    /// ensures { B.value result ≡ self.now.1 }
    /// ```
    pub fn upper_bound(&self) -> B {
        self.ub
    }

    /// Does nothing: its contract states that each member is in the range.
    ///
    /// ```
    /// use intervallum::proved::examples::*;
    ///
    /// fn main() -> Result<(), std::boxed::Box<dyn std::error::Error>> {
    ///     let alloc = Global;
    ///     let a = Interval::new(3i32, 8);
    ///     a.in_whole(); // a proof knows from here on that the members of `a` are in the range
    ///     Ok(())
    /// }
    /// ```
    ///
    /// # Proved
    ///
    /// Each number of the interval is in the range.
    ///
    /// ```text
    /// ensures { IsSubset (IsBetween self) (IsBetween B.whole) }
    /// ```
    ///
    /// Words: [`IsSubset`](crate::definitions#IsSubset), [`IsBetween`](crate::definitions#IsBetween).
    pub fn in_whole(self) {}
}

/// Proved, with these words of the trait:
///
/// ```text
/// is_clone = { λ x y. y ≡ x }
/// is_infallible = { λ _. ⊤ }
/// ```
impl<B: Width> Clone for Interval<B> {
    /// Returns a copy. Does not allocate, so it never fails.
    fn clone(&self) -> Result<Self, AllocError> {
        Ok(*self)
    }
}

/// Proved, with these words of the trait:
///
/// ```text
/// eq = { same_interval }
/// ```
///
/// Words: [`same_interval`](crate::definitions#same_interval).
impl<B: Width> PartialEq for Interval<B> {
    /// Returns true exactly when the two have the same members.
    ///
    /// ```
    /// use intervallum::proved::examples::*;
    ///
    /// fn main() -> Result<(), std::boxed::Box<dyn std::error::Error>> {
    ///     let alloc = Global;
    ///     assert_eq!(Interval::new(8i32, 3), Interval::empty());
    ///     Ok(())
    /// }
    /// ```
    ///
    /// # Proved
    ///
    /// True exactly when both intervals have the same numbers.
    ///
    /// ```text
    /// ensures value { result ≡ same_interval self.now other.now }
    /// ensures members { IsTrue result ↔ SameMembers (IsBetween self.now) (IsBetween other.now) }
    /// ```
    ///
    /// Words: [`same_interval`](crate::definitions#same_interval), [`SameMembers`](crate::definitions#SameMembers), [`IsBetween`](crate::definitions#IsBetween).
    fn eq(&self, other: &Self) -> bool {
        has_same_members(self, other)
    }
}

fn has_same_members<B: Width>(a: &Interval<B>, b: &Interval<B>) -> bool {
    if a.is_empty() {
        b.is_empty()
    } else {
        a.lb == b.lb && a.ub == b.ub
    }
}

impl<B: Width> Eq for Interval<B> {
}
