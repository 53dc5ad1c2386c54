// Written by bindings/rust/extract from crates/intervallum/src/interval_set/disjoint.rt.
//! Whether a value is not a member.

#[allow(unused_imports)]
use crate::rattle::prelude::*;
use super::IntervalSet;
use crate::proved::intervallum::ops::{Contains, Disjoint, Overlap};
use crate::proved::intervallum::optional::Optional;
use crate::proved::intervallum::width::Width;

/// Proved, with these words of the trait:
///
/// ```text
/// members = { Covers }
/// other_members = { λ x. Only (B.value x) }
/// ```
///
/// Words: [`Covers`](crate::definitions#Covers), [`Only`](crate::definitions#Only).
impl<B: Width> Disjoint<B> for IntervalSet<B> {
    /// Returns true exactly when the value, which may be any of its type, is not a member.
    /// `O(log n)`. Does not allocate.
    ///
    /// ```
    /// use intervallum::proved::examples::*;
    ///
    /// fn main() -> Result<(), std::boxed::Box<dyn std::error::Error>> {
    ///     let alloc = Global;
    ///     let a: IntervalSet<i32> = [(1, 2), (5, 6)].to_interval_set(alloc)?;
    ///     assert!(a.is_disjoint(&3) && !a.is_disjoint(&5));
    ///     Ok(())
    /// }
    /// ```
    ///
    /// # Proved
    ///
    /// What [`Disjoint::is_disjoint`] says, by the words of the type.
    fn is_disjoint(&self, other: &B) -> bool {
        !self.contains(other)
    }
}

/// Proved, with these words of the trait:
///
/// ```text
/// members = { Covers }
/// other_members = { λ o. Held (option_map B.value o) }
/// ```
///
/// Words: [`Covers`](crate::definitions#Covers), [`Held`](crate::definitions#Held).
impl<B: Width> Disjoint<Optional<B>> for IntervalSet<B> {
    /// Returns true exactly when there is no value, or it is not a member. `O(log n)`. Does not
    /// allocate.
    ///
    /// ```
    /// use intervallum::proved::examples::*;
    ///
    /// fn main() -> Result<(), std::boxed::Box<dyn std::error::Error>> {
    ///     let alloc = Global;
    ///     let a: IntervalSet<i32> = [(1, 2), (5, 6)].to_interval_set(alloc)?;
    ///     assert!(a.is_disjoint(&Optional::empty()) && !a.is_disjoint(&Optional::singleton(5)));
    ///     Ok(())
    /// }
    /// ```
    ///
    /// # Proved
    ///
    /// What [`Disjoint::is_disjoint`] says, by the words of the type.
    fn is_disjoint(&self, other: &Optional<B>) -> bool {
        !self.overlap(other)
    }
}
