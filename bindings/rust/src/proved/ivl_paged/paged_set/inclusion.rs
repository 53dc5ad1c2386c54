// Written by bindings/rust/extract from crates/ivl_paged/src/paged_set/inclusion.rt.
//! Which of two sets includes the other, in pages or in one list.

#[allow(unused_imports)]
use crate::rattle::prelude::*;
use super::PagedSet;
use super::walks::is_included;
use crate::proved::intervallum::interval_set::IntervalSet;
use crate::proved::intervallum::ops::Subset;
use crate::proved::intervallum::width::Width;

/// Proved, with these words of the trait:
///
/// ```text
/// members = { Covers }
/// ```
///
/// Words: [`Covers`](crate::definitions#Covers).
impl<B: Width> Subset for PagedSet<B> {
    /// Returns true exactly when each member is a member of `other`, so always for an empty set.
    /// Reads the `n` runs and the `m` of `other` up to the first that is missing: `O(n + m)`. If
    /// `other` has far more (16 times), searches for each of the `n`: `O(n log m)`. Does not allocate.
    ///
    /// ```
    /// use intervallum::proved::examples::*;
    ///
    /// fn main() -> Result<(), std::boxed::Box<dyn std::error::Error>> {
    ///     let alloc = Global;
    ///     let a = PagedSet::of_set(&IntervalSet::new(alloc, 1, 2)?)?;
    ///     let b = PagedSet::of_set(&IntervalSet::new(alloc, 0, 10)?)?;
    ///     assert!(a.is_subset(&b) && !b.is_subset(&a));
    ///     Ok(())
    /// }
    /// ```
    ///
    /// # Proved
    ///
    /// What [`Subset::is_subset`] says, by the words of the type.
    fn is_subset(&self, other: &PagedSet<B>) -> bool {
        is_included(self, other)
    }
}

impl<B: Width> PagedSet<B> {
    /// Returns true exactly when each member of `other` is a member, so always if `other` is empty.
    /// Costs as much as `other.is_subset`: `O(n + m)`, or `O(k log n)` if `other` has only `k` runs, far
    /// fewer (a 16th). Does not allocate.
    ///
    /// ```
    /// use intervallum::proved::examples::*;
    ///
    /// fn main() -> Result<(), std::boxed::Box<dyn std::error::Error>> {
    ///     let alloc = Global;
    ///     let a = PagedSet::of_set(&IntervalSet::new(alloc, 0, 10)?)?;
    ///     let b = PagedSet::of_set(&IntervalSet::new(alloc, 1, 2)?)?;
    ///     assert!(a.is_superset(&b) && !b.is_superset(&a));
    ///     Ok(())
    /// }
    /// ```
    ///
    /// # Proved
    ///
    /// True exactly when each member of `other` is a member.
    ///
    /// ```text
    /// ensures { IsTrue result ↔ IsSubset (Covers other.now) (Covers self.now) }
    /// ```
    ///
    /// Words: [`IsSubset`](crate::definitions#IsSubset), [`Covers`](crate::definitions#Covers).
    pub fn is_superset(&self, other: &PagedSet<B>) -> bool {
        other.is_subset(self)
    }

    /// Returns true exactly when each member is a member of `list`, whose runs stand in one list.
    /// Costs as much as with another set in pages: `O(n + m)`, or `O(k log m)` if the set has only `k`
    /// runs, far fewer (a 16th). Does not allocate.
    ///
    /// ```
    /// use intervallum::proved::examples::*;
    ///
    /// fn main() -> Result<(), std::boxed::Box<dyn std::error::Error>> {
    ///     let alloc = Global;
    ///     let a = PagedSet::of_set(&IntervalSet::new(alloc, 1, 2)?)?;
    ///     assert!(a.is_subset_of_list(&IntervalSet::new(alloc, 0, 10)?));
    ///     assert!(!a.is_subset_of_list(&IntervalSet::new(alloc, 2, 10)?));
    ///     Ok(())
    /// }
    /// ```
    ///
    /// # Proved
    ///
    /// True exactly when each member is a member of `list`.
    ///
    /// ```text
    /// ensures { IsTrue result ↔ IsSubset (Covers self.now) (Covers list.now) }
    /// ```
    ///
    /// Words: [`IsSubset`](crate::definitions#IsSubset), [`Covers`](crate::definitions#Covers).
    pub fn is_subset_of_list(&self, list: &IntervalSet<B>) -> bool {
        is_included(self, list)
    }

    /// Returns true exactly when each member of `list`, whose runs stand in one list, is a member.
    /// Costs as much as with another set in pages: `O(n + m)`, or `O(k log n)` if the list has only `k`
    /// runs, far fewer (a 16th). Does not allocate.
    ///
    /// ```
    /// use intervallum::proved::examples::*;
    ///
    /// fn main() -> Result<(), std::boxed::Box<dyn std::error::Error>> {
    ///     let alloc = Global;
    ///     let a = PagedSet::of_set(&IntervalSet::new(alloc, 0, 10)?)?;
    ///     assert!(a.is_superset_of_list(&IntervalSet::new(alloc, 1, 2)?));
    ///     assert!(!a.is_superset_of_list(&IntervalSet::new(alloc, 9, 11)?));
    ///     Ok(())
    /// }
    /// ```
    ///
    /// # Proved
    ///
    /// True exactly when each member of `list` is a member.
    ///
    /// ```text
    /// ensures { IsTrue result ↔ IsSubset (Covers list.now) (Covers self.now) }
    /// ```
    ///
    /// Words: [`IsSubset`](crate::definitions#IsSubset), [`Covers`](crate::definitions#Covers).
    pub fn is_superset_of_list(&self, list: &IntervalSet<B>) -> bool {
        is_included(list, self)
    }
}
