// Written by bindings/rust/extract from crates/intervallum/src/interval_set/value_operands.rt.
//! Operations on a set and a single value.

#[allow(unused_imports)]
use crate::rattle::prelude::*;
use super::IntervalSet;
use crate::proved::intervallum::ops::{Contains, Difference, Intersection, SymmetricDifference, Union};
use crate::proved::intervallum::width::Width;
use crate::rattle::std::alloc::AllocError;

/// Proved, with these words of the trait:
///
/// ```text
/// members = { Covers }
/// other_members = { λ v. Only (B.value v) }
/// can_unite = { λ _ v. IsBetween B.whole (B.value v) }
/// answers = { λ r S. IfOk r (λ L. IsRunsOf L S) }
/// ```
///
/// Words: [`Covers`](crate::definitions#Covers), [`Only`](crate::definitions#Only), [`IsBetween`](crate::definitions#IsBetween), [`IsRunsOf`](crate::definitions#IsRunsOf).
impl<B: Width> Union<B> for IntervalSet<B> {
    type Output = Result<IntervalSet<B>, AllocError>;

    /// Returns the members and the value. `O(n)`: one copy and at most two binary searches.
    /// Reserves `n + 1` runs once. Fails only if allocation fails.
    ///
    /// The caller must ensure that the value is in the range. Check with
    /// `Interval::in_range(value, value)`.
    ///
    /// ```
    /// use intervallum::proved::examples::*;
    ///
    /// fn main() -> Result<(), std::boxed::Box<dyn std::error::Error>> {
    ///     let alloc = Global;
    ///     let a = IntervalSet::new(alloc, 1, 5)?;
    ///     assert!(a.union(&6)? == IntervalSet::new(alloc, 1, 6)?);
    ///     Ok(())
    /// }
    /// ```
    ///
    /// # Proved
    ///
    /// On success, the members are exactly those of the set and the value, in at most one run more than the set has.
    ///
    /// ```text
    /// requires { IsBetween B.whole (B.value other.now) }
    /// ensures members { IfOk result (λ L. IsRunsOf L (Union (Covers self.now) (Only (B.value other.now)))) }
    /// ensures runs_at_most { IfOk result (λ L. length L ≤ length self.now + 1) }
    /// ```
    ///
    /// Words: [`IsBetween`](crate::definitions#IsBetween), [`IsRunsOf`](crate::definitions#IsRunsOf), [`Union`](crate::definitions#Union), [`Covers`](crate::definitions#Covers), [`Only`](crate::definitions#Only).
    #[cfg_attr(debug_assertions, track_caller)]
    fn union(&self, other: &B) -> Result<IntervalSet<B>, AllocError> {
        let mut set = self.copy_with_room()?;
        set.insert(*other)?;
        Ok(set)
    }
}

/// Proved, with these words of the trait:
///
/// ```text
/// members = { Covers }
/// other_members = { λ v. Only (B.value v) }
/// can_unite = { λ _ v. IsBetween B.whole (B.value v) }
/// answers = { λ r S. IfOk r (λ L. IsRunsOf L S) }
/// ```
///
/// Words: [`Covers`](crate::definitions#Covers), [`Only`](crate::definitions#Only), [`IsBetween`](crate::definitions#IsBetween), [`IsRunsOf`](crate::definitions#IsRunsOf).
impl<B: Width> SymmetricDifference<B> for IntervalSet<B> {
    type Output = Result<IntervalSet<B>, AllocError>;

    /// Returns the members without the value if it is one of them, else with it. `O(n)`: one copy
    /// and at most three binary searches. Reserves `n + 1` runs once and does not shrink the result.
    /// Fails only if allocation fails.
    ///
    /// The caller must ensure that the value is in the range. Check with
    /// `Interval::in_range(value, value)`.
    ///
    /// ```
    /// use intervallum::proved::examples::*;
    ///
    /// fn main() -> Result<(), std::boxed::Box<dyn std::error::Error>> {
    ///     let alloc = Global;
    ///     let a = IntervalSet::new(alloc, 1, 5)?;
    ///     assert!(a.symmetric_difference(&5)? == IntervalSet::new(alloc, 1, 4)?);
    ///     Ok(())
    /// }
    /// ```
    ///
    /// # Proved
    ///
    /// On success, the members are exactly those of the set other than the value, and the value if the set does not have it, in at most one run more than the set has.
    ///
    /// ```text
    /// requires { IsBetween B.whole (B.value other.now) }
    /// ensures members { IfOk result (λ L. IsRunsOf L (SymmetricDifference (Covers self.now) (Only (B.value other.now)))) }
    /// ensures runs_at_most { IfOk result (λ L. length L ≤ length self.now + 1) }
    /// ```
    ///
    /// Words: [`IsBetween`](crate::definitions#IsBetween), [`IsRunsOf`](crate::definitions#IsRunsOf), [`SymmetricDifference`](crate::definitions#SymmetricDifference), [`Covers`](crate::definitions#Covers), [`Only`](crate::definitions#Only).
    #[cfg_attr(debug_assertions, track_caller)]
    fn symmetric_difference(&self, other: &B) -> Result<IntervalSet<B>, AllocError> {
        if self.contains(other) {
            self.difference(other)
        } else {
            self.union(other)
        }
    }
}

/// Proved, with these words of the trait:
///
/// ```text
/// members = { Covers }
/// other_members = { λ v. Only (B.value v) }
/// answers = { λ r S. IfOk r (λ L. IsRunsOf L S) }
/// ```
///
/// Words: [`Covers`](crate::definitions#Covers), [`Only`](crate::definitions#Only), [`IsRunsOf`](crate::definitions#IsRunsOf).
impl<B: Width> Intersection<B> for IntervalSet<B> {
    type Output = Result<IntervalSet<B>, AllocError>;

    /// Returns the value alone if it is a member, else the empty set. It may be any value of its
    /// type. `O(log n)`. Allocates one run if it is a member. Fails only if allocation fails.
    ///
    /// ```
    /// use intervallum::proved::examples::*;
    ///
    /// fn main() -> Result<(), std::boxed::Box<dyn std::error::Error>> {
    ///     let alloc = Global;
    ///     let a = IntervalSet::new(alloc, 1, 5)?;
    ///     assert!(a.intersection(&5)? == IntervalSet::singleton(alloc, 5)?);
    ///     Ok(())
    /// }
    /// ```
    ///
    /// # Proved
    ///
    /// On success, the only member is the value if the set has it, and there is none if not, in at most one run more than the set has.
    ///
    /// ```text
    /// ensures members { IfOk result (λ L. IsRunsOf L (Intersection (Covers self.now) (Only (B.value other.now)))) }
    /// ensures runs_at_most { IfOk result (λ L. length L ≤ length self.now + 1) }
    /// ```
    ///
    /// Words: [`IsRunsOf`](crate::definitions#IsRunsOf), [`Intersection`](crate::definitions#Intersection), [`Covers`](crate::definitions#Covers), [`Only`](crate::definitions#Only).
    fn intersection(&self, other: &B) -> Result<IntervalSet<B>, AllocError> {
        // the members are in the range, and so is the value if it is one
        self.in_whole();
        if self.contains(other) {
            IntervalSet::new(self.allocator(), *other, *other)
        } else {
            Ok(IntervalSet::empty(self.allocator()))
        }
    }
}

/// Proved, with these words of the trait:
///
/// ```text
/// members = { Covers }
/// other_members = { λ v. Only (B.value v) }
/// answers = { λ r S. IfOk r (λ L. IsRunsOf L S) }
/// ```
///
/// Words: [`Covers`](crate::definitions#Covers), [`Only`](crate::definitions#Only), [`IsRunsOf`](crate::definitions#IsRunsOf).
impl<B: Width> Difference<B> for IntervalSet<B> {
    type Output = Result<IntervalSet<B>, AllocError>;

    /// Returns the members except the value, which may be any value of its type. `O(n)`: one copy
    /// and at most two binary searches. Reserves `n + 1` runs once and does not shrink the result.
    /// Fails only if allocation fails.
    ///
    /// ```
    /// use intervallum::proved::examples::*;
    ///
    /// fn main() -> Result<(), std::boxed::Box<dyn std::error::Error>> {
    ///     let alloc = Global;
    ///     let a = IntervalSet::new(alloc, 1, 5)?;
    ///     assert!(a.difference(&5)? == IntervalSet::new(alloc, 1, 4)?);
    ///     Ok(())
    /// }
    /// ```
    ///
    /// # Proved
    ///
    /// On success, the members are exactly those of the set other than the value, in at most one run more than the set has.
    ///
    /// ```text
    /// ensures members { IfOk result (λ L. IsRunsOf L (Without (Covers self.now) (Only (B.value other.now)))) }
    /// ensures runs_at_most { IfOk result (λ L. length L ≤ length self.now + 1) }
    /// ```
    ///
    /// Words: [`IsRunsOf`](crate::definitions#IsRunsOf), [`Without`](crate::definitions#Without), [`Covers`](crate::definitions#Covers), [`Only`](crate::definitions#Only).
    fn difference(&self, other: &B) -> Result<IntervalSet<B>, AllocError> {
        let mut set = self.copy_with_room()?;
        set.remove(*other)?;
        Ok(set)
    }
}
