// Written by bindings/rust/extract from crates/intervallum/src/interval_set/contains.rt.
//! Membership of values.

#[allow(unused_imports)]
use crate::rattle::prelude::*;
use super::IntervalSet;
use crate::proved::intervallum::ops::{Contains, Overlap};
use crate::proved::intervallum::optional::Optional;
use crate::proved::intervallum::steps::{Place, Probes, find};
use crate::proved::intervallum::width::Width;

impl<B: Width> Contains for IntervalSet<B> {
    /// Returns true exactly when `item`, which may be any value of its type, is a member. Binary
    /// search: `O(log n)`. Does not allocate.
    ///
    /// ```
    /// use intervallum::proved::examples::*;
    ///
    /// fn main() -> Result<(), std::boxed::Box<dyn std::error::Error>> {
    ///     let alloc = Global;
    ///     let a: IntervalSet<i32> = [(1, 2), (5, 6)].to_interval_set(alloc)?;
    ///     assert!(a.contains(&5) && !a.contains(&3));
    ///     Ok(())
    /// }
    /// ```
    ///
    /// # Proved
    ///
    /// What [`Contains::contains`] says, by the words of the type.
    fn contains(&self, item: &B) -> bool {
        let mut runs = Probes::new(self);
        match find(&mut runs, *item) {
            Place::In(_) => true,
            Place::Gap(_) => false,
        }
    }
}

/// Proved, with these words of the trait:
///
/// ```text
/// members = { Covers }
/// other_members = { λ x. Only (B.value x) }
/// ```
///
/// Words: [`Covers`](crate::definitions#Covers), [`Only`](crate::definitions#Only).
impl<B: Width> Overlap<B> for IntervalSet<B> {
    /// Returns true exactly when the value, which may be any of its type, is a member. `O(log n)`.
    /// Does not allocate.
    ///
    /// ```
    /// use intervallum::proved::examples::*;
    ///
    /// fn main() -> Result<(), std::boxed::Box<dyn std::error::Error>> {
    ///     let alloc = Global;
    ///     let a: IntervalSet<i32> = [(1, 2), (5, 6)].to_interval_set(alloc)?;
    ///     assert!(a.overlap(&5) && !a.overlap(&3));
    ///     Ok(())
    /// }
    /// ```
    ///
    /// # Proved
    ///
    /// What [`Overlap::overlap`] says, by the words of the type.
    fn overlap(&self, other: &B) -> bool {
        self.contains(other)
    }
}

/// Proved, with these words of the trait:
///
/// ```text
/// members = { Covers }
/// other_members = { λ o. Held (option_map B.value o) }
/// ```
///
/// Words: [`Covers`](crate::definitions#Covers), [`Held`](crate::definitions#Held).
impl<B: Width> Overlap<Optional<B>> for IntervalSet<B> {
    /// Returns true exactly when there is a value and it is a member. `O(log n)`. Does not
    /// allocate.
    ///
    /// ```
    /// use intervallum::proved::examples::*;
    ///
    /// fn main() -> Result<(), std::boxed::Box<dyn std::error::Error>> {
    ///     let alloc = Global;
    ///     let a: IntervalSet<i32> = [(1, 2), (5, 6)].to_interval_set(alloc)?;
    ///     assert!(a.overlap(&Optional::singleton(5)) && !a.overlap(&Optional::empty()));
    ///     Ok(())
    /// }
    /// ```
    ///
    /// # Proved
    ///
    /// What [`Overlap::overlap`] says, by the words of the type.
    fn overlap(&self, other: &Optional<B>) -> bool {
        match other.as_ref() {
            Some(x) => self.contains(x),
            None => false,
        }
    }
}
