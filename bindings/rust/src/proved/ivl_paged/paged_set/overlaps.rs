// Written by bindings/rust/extract from crates/ivl_paged/src/paged_set/overlaps.rt.
//! Whether a set has a common member with another, in pages or in one list.

#[allow(unused_imports)]
use crate::rattle::prelude::*;
use super::PagedSet;
use super::walks::have_common;
use crate::proved::intervallum::interval_set::IntervalSet;
use crate::proved::intervallum::ops::{Disjoint, Overlap};
use crate::proved::intervallum::width::Width;

/// Proved, with these words of the trait:
///
/// ```text
/// members = { Covers }
/// other_members = { Covers }
/// ```
///
/// Words: [`Covers`](crate::definitions#Covers).
impl<B: Width> Disjoint<PagedSet<B>> for PagedSet<B> {
    /// Returns true exactly when no number is a member of both. `O(n + m)`, and stops at the first
    /// common member. If one set has far fewer runs (a 16th), searches for each of its `k` runs among
    /// the `n` of the other: `O(k log n)`. Does not allocate.
    ///
    /// ```
    /// use intervallum::proved::examples::*;
    ///
    /// fn main() -> Result<(), std::boxed::Box<dyn std::error::Error>> {
    ///     let alloc = Global;
    ///     let a = PagedSet::of_set(&IntervalSet::new(alloc, 1, 2)?)?;
    ///     let b = PagedSet::of_set(&IntervalSet::new(alloc, 3, 5)?)?;
    ///     assert!(a.is_disjoint(&b) && !a.is_disjoint(&a));
    ///     Ok(())
    /// }
    /// ```
    ///
    /// # Proved
    ///
    /// True exactly when no number is a member of both sets.
    ///
    /// ```text
    /// ensures { IsTrue result ↔ HasNone (Intersection (Covers self.now) (Covers other.now)) }
    /// ```
    ///
    /// Words: [`HasNone`](crate::definitions#HasNone), [`Intersection`](crate::definitions#Intersection), [`Covers`](crate::definitions#Covers).
    fn is_disjoint(&self, other: &PagedSet<B>) -> bool {
        !have_common(self, other)
    }
}

/// Proved, with these words of the trait:
///
/// ```text
/// members = { Covers }
/// other_members = { Covers }
/// ```
///
/// Words: [`Covers`](crate::definitions#Covers).
impl<B: Width> Disjoint<IntervalSet<B>> for PagedSet<B> {
    /// Returns true exactly when no number is a member of both. Costs as much as with another set in
    /// pages: `O(n + m)`, or `O(k log n)` if one of both has only `k` runs, far fewer (a 16th). Does not
    /// allocate.
    ///
    /// ```
    /// use intervallum::proved::examples::*;
    ///
    /// fn main() -> Result<(), std::boxed::Box<dyn std::error::Error>> {
    ///     let alloc = Global;
    ///     let a = PagedSet::of_set(&IntervalSet::new(alloc, 1, 2)?)?;
    ///     assert!(a.is_disjoint(&IntervalSet::new(alloc, 3, 5)?));
    ///     assert!(!a.is_disjoint(&IntervalSet::new(alloc, 2, 5)?));
    ///     Ok(())
    /// }
    /// ```
    ///
    /// # Proved
    ///
    /// True exactly when no number is a member of both sets.
    ///
    /// ```text
    /// ensures { IsTrue result ↔ HasNone (Intersection (Covers self.now) (Covers other.now)) }
    /// ```
    ///
    /// Words: [`HasNone`](crate::definitions#HasNone), [`Intersection`](crate::definitions#Intersection), [`Covers`](crate::definitions#Covers).
    fn is_disjoint(&self, other: &IntervalSet<B>) -> bool {
        !self.overlap(other)
    }
}

/// Proved, with these words of the trait:
///
/// ```text
/// members = { Covers }
/// other_members = { Covers }
/// ```
///
/// Words: [`Covers`](crate::definitions#Covers).
impl<B: Width> Overlap<PagedSet<B>> for PagedSet<B> {
    /// Returns true exactly when some number is a member of both. `O(n + m)`, and stops at the first
    /// common member. If one set has far fewer runs (a 16th), searches for each of its `k` runs among
    /// the `n` of the other: `O(k log n)`. Does not allocate.
    ///
    /// ```
    /// use intervallum::proved::examples::*;
    ///
    /// fn main() -> Result<(), std::boxed::Box<dyn std::error::Error>> {
    ///     let alloc = Global;
    ///     let a = PagedSet::of_set(&IntervalSet::new(alloc, 1, 2)?)?;
    ///     let b = PagedSet::of_set(&IntervalSet::new(alloc, 3, 5)?)?;
    ///     assert!(a.overlap(&a) && !a.overlap(&b));
    ///     Ok(())
    /// }
    /// ```
    ///
    /// # Proved
    ///
    /// True exactly when some number is a member of both sets.
    ///
    /// ```text
    /// ensures { IsTrue result ↔ HasSome (Intersection (Covers self.now) (Covers other.now)) }
    /// ```
    ///
    /// Words: [`HasSome`](crate::definitions#HasSome), [`Intersection`](crate::definitions#Intersection), [`Covers`](crate::definitions#Covers).
    fn overlap(&self, other: &PagedSet<B>) -> bool {
        have_common(self, other)
    }
}

/// Proved, with these words of the trait:
///
/// ```text
/// members = { Covers }
/// other_members = { Covers }
/// ```
///
/// Words: [`Covers`](crate::definitions#Covers).
impl<B: Width> Overlap<IntervalSet<B>> for PagedSet<B> {
    /// Returns true exactly when some number is a member of both. Costs as much as with another set in
    /// pages: `O(n + m)`, or `O(k log n)` if one of both has only `k` runs, far fewer (a 16th). Does not
    /// allocate.
    ///
    /// ```
    /// use intervallum::proved::examples::*;
    ///
    /// fn main() -> Result<(), std::boxed::Box<dyn std::error::Error>> {
    ///     let alloc = Global;
    ///     let a = PagedSet::of_set(&IntervalSet::new(alloc, 1, 2)?)?;
    ///     assert!(a.overlap(&IntervalSet::new(alloc, 2, 5)?));
    ///     assert!(!a.overlap(&IntervalSet::new(alloc, 3, 5)?));
    ///     Ok(())
    /// }
    /// ```
    ///
    /// # Proved
    ///
    /// True exactly when some number is a member of both sets.
    ///
    /// ```text
    /// ensures { IsTrue result ↔ HasSome (Intersection (Covers self.now) (Covers other.now)) }
    /// ```
    ///
    /// Words: [`HasSome`](crate::definitions#HasSome), [`Intersection`](crate::definitions#Intersection), [`Covers`](crate::definitions#Covers).
    fn overlap(&self, other: &IntervalSet<B>) -> bool {
        have_common(other, self)
    }
}
