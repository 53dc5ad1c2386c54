// Written by bindings/rust/extract from crates/intervallum/src/interval_set/lattice.rt.
//! The lattice of sets, ordered by information: join and meet.

#[allow(unused_imports)]
use crate::rattle::prelude::*;
use super::IntervalSet;
use crate::proved::intervallum::ops::{Join, Meet};
use crate::proved::intervallum::steps::{Walk, common, unite};
use crate::proved::intervallum::width::Width;
use crate::rattle::std::alloc::AllocError;

/// Proved, with these words of the trait:
///
/// ```text
/// members = { Covers }
/// answers = { λ r S. IfOk r (λ L. IsRunsOf L S) }
/// ```
///
/// Words: [`Covers`](crate::definitions#Covers), [`IsRunsOf`](crate::definitions#IsRunsOf).
impl<B: Width> Join for IntervalSet<B> {
    type Output = Result<IntervalSet<B>, AllocError>;

    /// Returns the members of both sets: the intersection. `O(n + m)`. Reserves `n + m` runs once.
    /// Consumes both sets. Fails only if allocation fails.
    ///
    /// ```
    /// use intervallum::proved::examples::*;
    ///
    /// fn main() -> Result<(), std::boxed::Box<dyn std::error::Error>> {
    ///     let alloc = Global;
    ///     let (a, b) = (IntervalSet::new(alloc, 1, 5)?, IntervalSet::new(alloc, 4, 9)?);
    ///     assert!(a.join(b)? == IntervalSet::new(alloc, 4, 5)?);
    ///     Ok(())
    /// }
    /// ```
    ///
    /// # Proved
    ///
    /// On success, the members are exactly those of both sets, in at most as many runs as the two have together.
    ///
    /// ```text
    /// ensures members { IfOk result (λ L. IsRunsOf L (Intersection (Covers self) (Covers other))) }
    /// ensures runs_at_most { IfOk result (λ L. length L ≤ length self + length other) }
    /// ```
    ///
    /// Words: [`IsRunsOf`](crate::definitions#IsRunsOf), [`Intersection`](crate::definitions#Intersection), [`Covers`](crate::definitions#Covers).
    fn join(self, other: IntervalSet<B>) -> Result<IntervalSet<B>, AllocError> {
        common(Walk::new(&self), Walk::new(&other))
    }
}

/// Proved, with these words of the trait:
///
/// ```text
/// members = { Covers }
/// answers = { λ r S. IfOk r (λ L. IsRunsOf L S) }
/// ```
///
/// Words: [`Covers`](crate::definitions#Covers), [`IsRunsOf`](crate::definitions#IsRunsOf).
impl<B: Width> Meet for IntervalSet<B> {
    type Output = Result<IntervalSet<B>, AllocError>;

    /// Returns the members of either set: the union. `O(n + m)`. Reserves `n + m` runs once.
    /// Consumes both sets. Fails only if allocation fails.
    ///
    /// ```
    /// use intervallum::proved::examples::*;
    ///
    /// fn main() -> Result<(), std::boxed::Box<dyn std::error::Error>> {
    ///     let alloc = Global;
    ///     let (a, b) = (IntervalSet::new(alloc, 1, 5)?, IntervalSet::new(alloc, 4, 9)?);
    ///     assert!(a.meet(b)? == IntervalSet::new(alloc, 1, 9)?);
    ///     Ok(())
    /// }
    /// ```
    ///
    /// # Proved
    ///
    /// On success, the members are exactly those of either set, in at most as many runs as the two have together.
    ///
    /// ```text
    /// ensures members { IfOk result (λ L. IsRunsOf L (Union (Covers self) (Covers other))) }
    /// ensures runs_at_most { IfOk result (λ L. length L ≤ length self + length other) }
    /// ```
    ///
    /// Words: [`IsRunsOf`](crate::definitions#IsRunsOf), [`Union`](crate::definitions#Union), [`Covers`](crate::definitions#Covers).
    fn meet(self, other: IntervalSet<B>) -> Result<IntervalSet<B>, AllocError> {
        unite(Walk::new(&self), Walk::new(&other))
    }
}
