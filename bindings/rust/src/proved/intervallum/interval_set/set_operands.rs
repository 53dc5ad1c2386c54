// Written by bindings/rust/extract from crates/intervallum/src/interval_set/set_operands.rt.
//! Set operations.

#[allow(unused_imports)]
use crate::rattle::prelude::*;
use super::IntervalSet;
use super::lopsided::{common_with_few, few_without, is_far_shorter, without_few};
use crate::proved::intervallum::ops::{
    Complement, Difference, Disjoint, Intersection, Overlap, SymmetricDifference, Union,
};
use crate::proved::intervallum::steps::{Probes, Walk, common, gaps, have_common, one_alone, unite, without};
use crate::proved::intervallum::width::Width;
use crate::rattle::std::alloc::AllocError;

/// Proved, with these words of the trait:
///
/// ```text
/// members = { Covers }
/// other_members = { Covers }
/// can_unite = { λ _ _. ⊤ }
/// answers = { λ r S. IfOk r (λ L. IsRunsOf L S) }
/// ```
///
/// Words: [`Covers`](crate::definitions#Covers), [`IsRunsOf`](crate::definitions#IsRunsOf).
impl<B: Width> Union<IntervalSet<B>> for IntervalSet<B> {
    type Output = Result<IntervalSet<B>, AllocError>;

    /// Returns the members of either set. `O(n + m)`. Reserves `n + m` runs once. Fails
    /// only if allocation fails.
    ///
    /// ```
    /// use intervallum::proved::examples::*;
    ///
    /// fn main() -> Result<(), std::boxed::Box<dyn std::error::Error>> {
    ///     let alloc = Global;
    ///     let (a, b) = (IntervalSet::new(alloc, 1, 5)?, IntervalSet::new(alloc, 4, 9)?);
    ///     assert!(a.union(&b)? == IntervalSet::new(alloc, 1, 9)?);
    ///     Ok(())
    /// }
    /// ```
    ///
    /// # Proved
    ///
    /// On success, the members are exactly those of either set, in at most as many runs as the two have together.
    ///
    /// ```text
    /// ensures members { IfOk result (λ L. IsRunsOf L (Union (Covers self.now) (Covers other.now))) }
    /// ensures runs_at_most { IfOk result (λ L. length L ≤ length self.now + length other.now) }
    /// ```
    ///
    /// Words: [`IsRunsOf`](crate::definitions#IsRunsOf), [`Union`](crate::definitions#Union), [`Covers`](crate::definitions#Covers).
    fn union(&self, other: &IntervalSet<B>) -> Result<IntervalSet<B>, AllocError> {
        unite(Walk::new(self), Walk::new(other))
    }
}

/// Proved, with these words of the trait:
///
/// ```text
/// members = { Covers }
/// other_members = { Covers }
/// answers = { λ r S. IfOk r (λ L. IsRunsOf L S) }
/// ```
///
/// Words: [`Covers`](crate::definitions#Covers), [`IsRunsOf`](crate::definitions#IsRunsOf).
impl<B: Width> Intersection<IntervalSet<B>> for IntervalSet<B> {
    type Output = Result<IntervalSet<B>, AllocError>;

    /// Returns the members of both sets. `O(n + m)`. Reserves `n + m` runs once. Fails
    /// only if allocation fails.
    ///
    /// If one set has far fewer runs, searches for each of its `k` runs among the `n` of the other,
    /// from where the last search ended: `O(k log n)`, plus a copy of the runs of the result. It
    /// then reserves `k` runs, and more as the result grows.
    ///
    /// ```
    /// use intervallum::proved::examples::*;
    ///
    /// fn main() -> Result<(), std::boxed::Box<dyn std::error::Error>> {
    ///     let alloc = Global;
    ///     let (a, b) = (IntervalSet::new(alloc, 1, 5)?, IntervalSet::new(alloc, 4, 9)?);
    ///     assert!(a.intersection(&b)? == IntervalSet::new(alloc, 4, 5)?);
    ///     Ok(())
    /// }
    /// ```
    ///
    /// # Proved
    ///
    /// On success, the members are exactly those of both sets, in at most as many runs as the two have together.
    ///
    /// ```text
    /// ensures members { IfOk result (λ L. IsRunsOf L (Intersection (Covers self.now) (Covers other.now))) }
    /// ensures runs_at_most { IfOk result (λ L. length L ≤ length self.now + length other.now) }
    /// ```
    ///
    /// Words: [`IsRunsOf`](crate::definitions#IsRunsOf), [`Intersection`](crate::definitions#Intersection), [`Covers`](crate::definitions#Covers).
    fn intersection(&self, other: &IntervalSet<B>) -> Result<IntervalSet<B>, AllocError> {
        if is_far_shorter(self, other) {
            common_with_few(self, other, &mut Probes::new(other))
        } else if is_far_shorter(other, self) {
            common_with_few(other, self, &mut Probes::new(self))
        } else {
            common(Walk::new(self), Walk::new(other))
        }
    }
}

/// Proved, with these words of the trait:
///
/// ```text
/// members = { Covers }
/// other_members = { Covers }
/// answers = { λ r S. IfOk r (λ L. IsRunsOf L S) }
/// ```
///
/// Words: [`Covers`](crate::definitions#Covers), [`IsRunsOf`](crate::definitions#IsRunsOf).
impl<B: Width> Difference<IntervalSet<B>> for IntervalSet<B> {
    type Output = Result<IntervalSet<B>, AllocError>;

    /// Returns the members that are not in `other`. `O(n + m)`. Reserves `n + m` runs once.
    /// Fails only if allocation fails.
    ///
    /// If one set has far fewer runs, searches for each of its `k` runs among the `n` of the other,
    /// from where the last search ended: `O(k log n)`, plus a copy of the runs of the result or of
    /// those that the `k` runs overlap. It then reserves memory as it copies runs, and also builds
    /// the complement of `other`, or the intersection of the two, which it drops at the end.
    ///
    /// ```
    /// use intervallum::proved::examples::*;
    ///
    /// fn main() -> Result<(), std::boxed::Box<dyn std::error::Error>> {
    ///     let alloc = Global;
    ///     let (a, b) = (IntervalSet::new(alloc, 1, 5)?, IntervalSet::new(alloc, 4, 9)?);
    ///     assert!(a.difference(&b)? == IntervalSet::new(alloc, 1, 3)?);
    ///     Ok(())
    /// }
    /// ```
    ///
    /// # Proved
    ///
    /// On success, the members are exactly those of the set that are not in `other`, in at most as many runs as the two have together.
    ///
    /// ```text
    /// ensures members { IfOk result (λ L. IsRunsOf L (Without (Covers self.now) (Covers other.now))) }
    /// ensures runs_at_most { IfOk result (λ L. length L ≤ length self.now + length other.now) }
    /// ```
    ///
    /// Words: [`IsRunsOf`](crate::definitions#IsRunsOf), [`Without`](crate::definitions#Without), [`Covers`](crate::definitions#Covers).
    fn difference(&self, other: &IntervalSet<B>) -> Result<IntervalSet<B>, AllocError> {
        if is_far_shorter(other, self) {
            without_few(self, other)
        } else if is_far_shorter(self, other) {
            few_without(self, other)
        } else {
            without(Walk::new(self), Walk::new(other))
        }
    }
}

/// Proved, with these words of the trait:
///
/// ```text
/// members = { Covers }
/// other_members = { Covers }
/// can_unite = { λ _ _. ⊤ }
/// answers = { λ r S. IfOk r (λ L. IsRunsOf L S) }
/// ```
///
/// Words: [`Covers`](crate::definitions#Covers), [`IsRunsOf`](crate::definitions#IsRunsOf).
impl<B: Width> SymmetricDifference<IntervalSet<B>> for IntervalSet<B> {
    type Output = Result<IntervalSet<B>, AllocError>;

    /// Returns the members of exactly one of the sets. `O(n + m)`. Reserves `n + m` runs once.
    /// Fails only if allocation fails.
    ///
    /// ```
    /// use intervallum::proved::examples::*;
    ///
    /// fn main() -> Result<(), std::boxed::Box<dyn std::error::Error>> {
    ///     let alloc = Global;
    ///     let (a, b) = (IntervalSet::new(alloc, 1, 5)?, IntervalSet::new(alloc, 4, 9)?);
    ///     assert!(a.symmetric_difference(&b)? == [(1, 3), (6, 9)].to_interval_set(alloc)?);
    ///     Ok(())
    /// }
    /// ```
    ///
    /// Builds no intermediate set.
    ///
    /// # Proved
    ///
    /// On success, the members are exactly those of either set that are not in both, in at most as many runs as the two have together.
    ///
    /// ```text
    /// ensures members { IfOk result (λ L. IsRunsOf L (SymmetricDifference (Covers self.now) (Covers other.now))) }
    /// ensures runs_at_most { IfOk result (λ L. length L ≤ length self.now + length other.now) }
    /// ```
    ///
    /// Words: [`IsRunsOf`](crate::definitions#IsRunsOf), [`SymmetricDifference`](crate::definitions#SymmetricDifference), [`Covers`](crate::definitions#Covers).
    fn symmetric_difference(&self, other: &IntervalSet<B>) -> Result<IntervalSet<B>, AllocError> {
        one_alone(self, other)
    }
}

/// Proved, with these words of the trait:
///
/// ```text
/// whole = { B.whole }
/// members = { Covers }
/// answers = { λ r S. IfOk r (λ L. IsRunsOf L S) }
/// ```
///
/// Words: [`Covers`](crate::definitions#Covers), [`IsRunsOf`](crate::definitions#IsRunsOf).
impl<B: Width> Complement for IntervalSet<B> {
    type Output = Result<IntervalSet<B>, AllocError>;

    /// Returns the complement within the range of the type. `O(n)`. Reserves `n + 1` runs once.
    /// Fails only if allocation fails.
    ///
    /// ```
    /// use intervallum::proved::examples::*;
    ///
    /// fn main() -> Result<(), std::boxed::Box<dyn std::error::Error>> {
    ///     let alloc = Global;
    ///     let a = IntervalSet::new(alloc, 10u8, 254)?;
    ///     assert!(a.complement()? == IntervalSet::new(alloc, 0, 9)?);
    ///     Ok(())
    /// }
    /// ```
    ///
    /// # Proved
    ///
    /// On success, the members are exactly the numbers of the range that are not in the set, in at most one run more than the set has.
    ///
    /// ```text
    /// ensures members { IfOk result (λ L. IsRunsOf L (Complement B.whole (Covers self.now))) }
    /// ensures runs_at_most { IfOk result (λ L. length L ≤ length self.now + 1) }
    /// ```
    ///
    /// Words: [`IsRunsOf`](crate::definitions#IsRunsOf), [`Complement`](crate::definitions#Complement), [`Covers`](crate::definitions#Covers).
    fn complement(&self) -> Result<IntervalSet<B>, AllocError> {
        gaps(self)
    }
}

/// Proved, with these words of the trait:
///
/// ```text
/// members = { Covers }
/// other_members = { Covers }
/// ```
///
/// Words: [`Covers`](crate::definitions#Covers).
impl<B: Width> Disjoint<IntervalSet<B>> for IntervalSet<B> {
    /// Returns true exactly when no number is a member of both. `O(n + m)`, and stops at the first
    /// common member. Does not allocate.
    ///
    /// ```
    /// use intervallum::proved::examples::*;
    ///
    /// fn main() -> Result<(), std::boxed::Box<dyn std::error::Error>> {
    ///     let alloc = Global;
    ///     let (a, b) = (IntervalSet::new(alloc, 1, 2)?, IntervalSet::new(alloc, 3, 5)?);
    ///     assert!(a.is_disjoint(&b) && !a.is_disjoint(&a));
    ///     Ok(())
    /// }
    /// ```
    ///
    /// # Proved
    ///
    /// True exactly when no number is a member of both sets.
    ///
    /// ```text
    /// ensures { IsTrue result ↔ HasNone (Intersection (Covers self.now) (Covers other.now)) }
    /// ```
    ///
    /// Words: [`HasNone`](crate::definitions#HasNone), [`Intersection`](crate::definitions#Intersection), [`Covers`](crate::definitions#Covers).
    fn is_disjoint(&self, other: &IntervalSet<B>) -> bool {
        !have_common(Walk::new(self), Walk::new(other))
    }
}

/// Proved, with these words of the trait:
///
/// ```text
/// members = { Covers }
/// other_members = { Covers }
/// ```
///
/// Words: [`Covers`](crate::definitions#Covers).
impl<B: Width> Overlap<IntervalSet<B>> for IntervalSet<B> {
    /// Returns true exactly when some number is a member of both. `O(n + m)`, and stops at the
    /// first common member. Does not allocate.
    ///
    /// ```
    /// use intervallum::proved::examples::*;
    ///
    /// fn main() -> Result<(), std::boxed::Box<dyn std::error::Error>> {
    ///     let alloc = Global;
    ///     let (a, b) = (IntervalSet::new(alloc, 1, 2)?, IntervalSet::new(alloc, 3, 5)?);
    ///     assert!(a.overlap(&a) && !a.overlap(&b));
    ///     Ok(())
    /// }
    /// ```
    ///
    /// # Proved
    ///
    /// True exactly when some number is a member of both sets.
    ///
    /// ```text
    /// ensures { IsTrue result ↔ HasSome (Intersection (Covers self.now) (Covers other.now)) }
    /// ```
    ///
    /// Words: [`HasSome`](crate::definitions#HasSome), [`Intersection`](crate::definitions#Intersection), [`Covers`](crate::definitions#Covers).
    fn overlap(&self, other: &IntervalSet<B>) -> bool {
        have_common(Walk::new(self), Walk::new(other))
    }
}
