// Written by bindings/rust/extract from crates/intervallum/src/interval_set/operators.rt.
//! The operators `|`, `&`, `^` and `!` of sets: the set operations under the names of the language.
//!
//! Each operand is owned or borrowed. Each call returns a new set; borrowed operands are unchanged,
//! and owned ones are consumed. Its cost, memory and errors are those of the operation that its docs
//! name. The operator `-` is the arithmetic difference and not `difference`.

#[allow(unused_imports)]
use crate::rattle::prelude::*;
use super::IntervalSet;
use crate::proved::intervallum::ops::{Complement, Intersection, SymmetricDifference, Union};
use crate::proved::intervallum::width::Width;
use crate::rattle::std::alloc::AllocError;
use crate::rattle::std::ops::{BitAnd, BitOr, BitXor, Not};

/// Proved, with these words of the trait:
///
/// On success, the members are exactly those of either set.
///
/// ```text
/// bitor_gives = { λ a b r. IfOk r (λ L. IsRunsOf L (Union (Covers a) (Covers b))) }
/// ```
///
/// Words: [`IsRunsOf`](crate::definitions#IsRunsOf), [`Union`](crate::definitions#Union), [`Covers`](crate::definitions#Covers).
impl<B: Width> BitOr<IntervalSet<B>> for IntervalSet<B> {
    type Output = Result<IntervalSet<B>, AllocError>;

    /// Returns the members of either set, as `union` does, at the same cost.
    ///
    /// ```
    /// use intervallum::proved::examples::*;
    ///
    /// fn main() -> Result<(), std::boxed::Box<dyn std::error::Error>> {
    ///     let alloc = Global;
    ///     let (a, b) = (IntervalSet::new(alloc, 1, 5)?, IntervalSet::new(alloc, 4, 9)?);
    ///     assert!((a | b)? == IntervalSet::new(alloc, 1, 9)?);
    ///     Ok(())
    /// }
    /// ```
    fn bitor(self, rhs: IntervalSet<B>) -> Result<IntervalSet<B>, AllocError> {
        &self | &rhs
    }
}

/// Proved, with these words of the trait:
///
/// On success, the members are exactly those of either set.
///
/// ```text
/// bitor_gives = { λ a b r. IfOk r (λ L. IsRunsOf L (Union (Covers a) (Covers b.now))) }
/// ```
///
/// Words: [`IsRunsOf`](crate::definitions#IsRunsOf), [`Union`](crate::definitions#Union), [`Covers`](crate::definitions#Covers).
impl<B: Width> BitOr<&IntervalSet<B>> for IntervalSet<B> {
    type Output = Result<IntervalSet<B>, AllocError>;

    /// Returns the members of either set, as `union` does, at the same cost.
    fn bitor(self, rhs: &IntervalSet<B>) -> Result<IntervalSet<B>, AllocError> {
        &self | rhs
    }
}

/// Proved, with these words of the trait:
///
/// On success, the members are exactly those of either set.
///
/// ```text
/// bitor_gives = { λ a b r. IfOk r (λ L. IsRunsOf L (Union (Covers a.now) (Covers b))) }
/// ```
///
/// Words: [`IsRunsOf`](crate::definitions#IsRunsOf), [`Union`](crate::definitions#Union), [`Covers`](crate::definitions#Covers).
impl<B: Width> BitOr<IntervalSet<B>> for &IntervalSet<B> {
    type Output = Result<IntervalSet<B>, AllocError>;

    /// Returns the members of either set, as `union` does, at the same cost.
    fn bitor(self, rhs: IntervalSet<B>) -> Result<IntervalSet<B>, AllocError> {
        self | &rhs
    }
}

/// Proved, with these words of the trait:
///
/// On success, the members are exactly those of either set.
///
/// ```text
/// bitor_gives = { λ a b r. IfOk r (λ L. IsRunsOf L (Union (Covers a.now) (Covers b.now))) }
/// ```
///
/// Words: [`IsRunsOf`](crate::definitions#IsRunsOf), [`Union`](crate::definitions#Union), [`Covers`](crate::definitions#Covers).
impl<B: Width> BitOr<&IntervalSet<B>> for &IntervalSet<B> {
    type Output = Result<IntervalSet<B>, AllocError>;

    /// Returns the members of either set, as `union` does, at the same cost.
    fn bitor(self, rhs: &IntervalSet<B>) -> Result<IntervalSet<B>, AllocError> {
        self.union(rhs)
    }
}

/// Proved, with these words of the trait:
///
/// On success, the members are exactly those of both sets.
///
/// ```text
/// bitand_gives = { λ a b r. IfOk r (λ L. IsRunsOf L (Intersection (Covers a) (Covers b))) }
/// ```
///
/// Words: [`IsRunsOf`](crate::definitions#IsRunsOf), [`Intersection`](crate::definitions#Intersection), [`Covers`](crate::definitions#Covers).
impl<B: Width> BitAnd<IntervalSet<B>> for IntervalSet<B> {
    type Output = Result<IntervalSet<B>, AllocError>;

    /// Returns the members of both sets, as `intersection` does, at the same cost.
    ///
    /// ```
    /// use intervallum::proved::examples::*;
    ///
    /// fn main() -> Result<(), std::boxed::Box<dyn std::error::Error>> {
    ///     let alloc = Global;
    ///     let (a, b) = (IntervalSet::new(alloc, 1, 5)?, IntervalSet::new(alloc, 4, 9)?);
    ///     assert!((a & b)? == IntervalSet::new(alloc, 4, 5)?);
    ///     Ok(())
    /// }
    /// ```
    fn bitand(self, rhs: IntervalSet<B>) -> Result<IntervalSet<B>, AllocError> {
        &self & &rhs
    }
}

/// Proved, with these words of the trait:
///
/// On success, the members are exactly those of both sets.
///
/// ```text
/// bitand_gives = { λ a b r. IfOk r (λ L. IsRunsOf L (Intersection (Covers a) (Covers b.now))) }
/// ```
///
/// Words: [`IsRunsOf`](crate::definitions#IsRunsOf), [`Intersection`](crate::definitions#Intersection), [`Covers`](crate::definitions#Covers).
impl<B: Width> BitAnd<&IntervalSet<B>> for IntervalSet<B> {
    type Output = Result<IntervalSet<B>, AllocError>;

    /// Returns the members of both sets, as `intersection` does, at the same cost.
    fn bitand(self, rhs: &IntervalSet<B>) -> Result<IntervalSet<B>, AllocError> {
        &self & rhs
    }
}

/// Proved, with these words of the trait:
///
/// On success, the members are exactly those of both sets.
///
/// ```text
/// bitand_gives = { λ a b r. IfOk r (λ L. IsRunsOf L (Intersection (Covers a.now) (Covers b))) }
/// ```
///
/// Words: [`IsRunsOf`](crate::definitions#IsRunsOf), [`Intersection`](crate::definitions#Intersection), [`Covers`](crate::definitions#Covers).
impl<B: Width> BitAnd<IntervalSet<B>> for &IntervalSet<B> {
    type Output = Result<IntervalSet<B>, AllocError>;

    /// Returns the members of both sets, as `intersection` does, at the same cost.
    fn bitand(self, rhs: IntervalSet<B>) -> Result<IntervalSet<B>, AllocError> {
        self & &rhs
    }
}

/// Proved, with these words of the trait:
///
/// On success, the members are exactly those of both sets.
///
/// ```text
/// bitand_gives = { λ a b r. IfOk r (λ L. IsRunsOf L (Intersection (Covers a.now) (Covers b.now))) }
/// ```
///
/// Words: [`IsRunsOf`](crate::definitions#IsRunsOf), [`Intersection`](crate::definitions#Intersection), [`Covers`](crate::definitions#Covers).
impl<B: Width> BitAnd<&IntervalSet<B>> for &IntervalSet<B> {
    type Output = Result<IntervalSet<B>, AllocError>;

    /// Returns the members of both sets, as `intersection` does, at the same cost.
    fn bitand(self, rhs: &IntervalSet<B>) -> Result<IntervalSet<B>, AllocError> {
        self.intersection(rhs)
    }
}

/// Proved, with these words of the trait:
///
/// On success, the members are exactly those of either set that are not in both.
///
/// ```text
/// bitxor_gives = { λ a b r. IfOk r (λ L. IsRunsOf L (SymmetricDifference (Covers a) (Covers b))) }
/// ```
///
/// Words: [`IsRunsOf`](crate::definitions#IsRunsOf), [`SymmetricDifference`](crate::definitions#SymmetricDifference), [`Covers`](crate::definitions#Covers).
impl<B: Width> BitXor<IntervalSet<B>> for IntervalSet<B> {
    type Output = Result<IntervalSet<B>, AllocError>;

    /// Returns the members of exactly one of the sets, as `symmetric_difference` does, at the same
    /// cost.
    ///
    /// ```
    /// use intervallum::proved::examples::*;
    ///
    /// fn main() -> Result<(), std::boxed::Box<dyn std::error::Error>> {
    ///     let alloc = Global;
    ///     let (a, b) = (IntervalSet::new(alloc, 1, 5)?, IntervalSet::new(alloc, 4, 9)?);
    ///     assert!((a ^ b)? == [(1, 3), (6, 9)].to_interval_set(alloc)?);
    ///     Ok(())
    /// }
    /// ```
    fn bitxor(self, rhs: IntervalSet<B>) -> Result<IntervalSet<B>, AllocError> {
        &self ^ &rhs
    }
}

/// Proved, with these words of the trait:
///
/// On success, the members are exactly those of either set that are not in both.
///
/// ```text
/// bitxor_gives = { λ a b r. IfOk r (λ L. IsRunsOf L (SymmetricDifference (Covers a) (Covers b.now))) }
/// ```
///
/// Words: [`IsRunsOf`](crate::definitions#IsRunsOf), [`SymmetricDifference`](crate::definitions#SymmetricDifference), [`Covers`](crate::definitions#Covers).
impl<B: Width> BitXor<&IntervalSet<B>> for IntervalSet<B> {
    type Output = Result<IntervalSet<B>, AllocError>;

    /// Returns the members of exactly one of the sets, as `symmetric_difference` does, at the same
    /// cost.
    fn bitxor(self, rhs: &IntervalSet<B>) -> Result<IntervalSet<B>, AllocError> {
        &self ^ rhs
    }
}

/// Proved, with these words of the trait:
///
/// On success, the members are exactly those of either set that are not in both.
///
/// ```text
/// bitxor_gives = { λ a b r. IfOk r (λ L. IsRunsOf L (SymmetricDifference (Covers a.now) (Covers b))) }
/// ```
///
/// Words: [`IsRunsOf`](crate::definitions#IsRunsOf), [`SymmetricDifference`](crate::definitions#SymmetricDifference), [`Covers`](crate::definitions#Covers).
impl<B: Width> BitXor<IntervalSet<B>> for &IntervalSet<B> {
    type Output = Result<IntervalSet<B>, AllocError>;

    /// Returns the members of exactly one of the sets, as `symmetric_difference` does, at the same
    /// cost.
    fn bitxor(self, rhs: IntervalSet<B>) -> Result<IntervalSet<B>, AllocError> {
        self ^ &rhs
    }
}

/// Proved, with these words of the trait:
///
/// On success, the members are exactly those of either set that are not in both.
///
/// ```text
/// bitxor_gives = { λ a b r. IfOk r (λ L. IsRunsOf L (SymmetricDifference (Covers a.now) (Covers b.now))) }
/// ```
///
/// Words: [`IsRunsOf`](crate::definitions#IsRunsOf), [`SymmetricDifference`](crate::definitions#SymmetricDifference), [`Covers`](crate::definitions#Covers).
impl<B: Width> BitXor<&IntervalSet<B>> for &IntervalSet<B> {
    type Output = Result<IntervalSet<B>, AllocError>;

    /// Returns the members of exactly one of the sets, as `symmetric_difference` does, at the same
    /// cost.
    fn bitxor(self, rhs: &IntervalSet<B>) -> Result<IntervalSet<B>, AllocError> {
        self.symmetric_difference(rhs)
    }
}

/// Proved, with these words of the trait:
///
/// On success, the members are exactly the numbers of the range that are not in the set.
///
/// ```text
/// not_gives = { λ a r. IfOk r (λ L. IsRunsOf L (Complement B.whole (Covers a))) }
/// ```
///
/// Words: [`IsRunsOf`](crate::definitions#IsRunsOf), [`Complement`](crate::definitions#Complement), [`Covers`](crate::definitions#Covers).
impl<B: Width> Not for IntervalSet<B> {
    type Output = Result<IntervalSet<B>, AllocError>;

    /// Returns the complement within the range of the type, as `complement` does, at the same cost.
    ///
    /// ```
    /// use intervallum::proved::examples::*;
    ///
    /// fn main() -> Result<(), std::boxed::Box<dyn std::error::Error>> {
    ///     let alloc = Global;
    ///     let a = IntervalSet::new(alloc, 10u8, 254)?;
    ///     assert!((!a)? == IntervalSet::new(alloc, 0, 9)?);
    ///     Ok(())
    /// }
    /// ```
    fn not(self) -> Result<IntervalSet<B>, AllocError> {
        !&self
    }
}

/// Proved, with these words of the trait:
///
/// On success, the members are exactly the numbers of the range that are not in the set.
///
/// ```text
/// not_gives = { λ a r. IfOk r (λ L. IsRunsOf L (Complement B.whole (Covers a.now))) }
/// ```
///
/// Words: [`IsRunsOf`](crate::definitions#IsRunsOf), [`Complement`](crate::definitions#Complement), [`Covers`](crate::definitions#Covers).
impl<B: Width> Not for &IntervalSet<B> {
    type Output = Result<IntervalSet<B>, AllocError>;

    /// Returns the complement within the range of the type, as `complement` does, at the same cost.
    fn not(self) -> Result<IntervalSet<B>, AllocError> {
        self.complement()
    }
}
