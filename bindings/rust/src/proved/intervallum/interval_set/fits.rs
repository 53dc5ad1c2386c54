// Written by bindings/rust/extract from crates/intervallum/src/interval_set/fits.rt.
//! Whether the results of arithmetic of sets are in the range.
//!
//! Each call reads only the ends of the sets, since the least and the greatest result are results
//! of ends. No call allocates.

#[allow(unused_imports)]
use crate::rattle::prelude::*;
use super::IntervalSet;
use crate::proved::intervallum::ops::Fits;
use crate::proved::intervallum::width::Width;

/// Proved, with these words of the trait:
///
/// ```text
/// whole = { B.whole }
/// members = { Covers }
/// other_members = { Covers }
/// ```
///
/// Words: [`Covers`](crate::definitions#Covers).
impl<B: Width> Fits<IntervalSet<B>> for IntervalSet<B> {
    /// Returns true exactly when `self + other` may be called, so always if a set is empty. `O(1)`.
    /// Does not allocate.
    ///
    /// ```
    /// use intervallum::proved::examples::*;
    ///
    /// fn main() -> Result<(), std::boxed::Box<dyn std::error::Error>> {
    ///     let alloc = Global;
    ///     let a = IntervalSet::new(alloc, 100i8, 100)?;
    ///     assert!(a.fits_add(&IntervalSet::new(alloc, 27, 27)?));
    ///     assert!(!a.fits_add(&IntervalSet::new(alloc, 28, 28)?));
    ///     Ok(())
    /// }
    /// ```
    ///
    /// # Proved
    ///
    /// What [`Fits::fits_add`] says, by the words of the type.
    fn fits_add(&self, other: &IntervalSet<B>) -> bool {
        self.hull().fits_add(&other.hull())
    }

    /// Returns true exactly when `self - other` may be called, so always if a set is empty. `O(1)`.
    /// Does not allocate.
    ///
    /// ```
    /// use intervallum::proved::examples::*;
    ///
    /// fn main() -> Result<(), std::boxed::Box<dyn std::error::Error>> {
    ///     let alloc = Global;
    ///     let a = IntervalSet::new(alloc, 3u8, 5)?;
    ///     assert!(a.fits_sub(&IntervalSet::new(alloc, 0, 3)?));
    ///     assert!(!a.fits_sub(&IntervalSet::new(alloc, 4, 4)?));
    ///     Ok(())
    /// }
    /// ```
    ///
    /// # Proved
    ///
    /// What [`Fits::fits_sub`] says, by the words of the type.
    fn fits_sub(&self, other: &IntervalSet<B>) -> bool {
        self.hull().fits_sub(&other.hull())
    }

    /// Returns true exactly when `self * other` may be called, so always if a set is empty. `O(1)`.
    /// Does not allocate.
    ///
    /// ```
    /// use intervallum::proved::examples::*;
    ///
    /// fn main() -> Result<(), std::boxed::Box<dyn std::error::Error>> {
    ///     let alloc = Global;
    ///     let a = IntervalSet::new(alloc, 100i8, 100)?;
    ///     assert!(a.fits_mul(&IntervalSet::new(alloc, -1, 1)?));
    ///     assert!(!a.fits_mul(&IntervalSet::new(alloc, 2, 2)?));
    ///     Ok(())
    /// }
    /// ```
    ///
    /// # Proved
    ///
    /// What [`Fits::fits_mul`] says, by the words of the type.
    fn fits_mul(&self, other: &IntervalSet<B>) -> bool {
        self.hull().fits_mul(&other.hull())
    }
}

/// Proved, with these words of the trait:
///
/// ```text
/// whole = { B.whole }
/// members = { Covers }
/// other_members = { λ x. Only (B.value x) }
/// ```
///
/// Words: [`Covers`](crate::definitions#Covers), [`Only`](crate::definitions#Only).
impl<B: Width> Fits<B> for IntervalSet<B> {
    /// Returns true exactly when `self + *other` may be called; `other` may be outside the range.
    /// `O(1)`. Does not allocate.
    ///
    /// ```
    /// use intervallum::proved::examples::*;
    ///
    /// fn main() -> Result<(), std::boxed::Box<dyn std::error::Error>> {
    ///     let alloc = Global;
    ///     let a = IntervalSet::new(alloc, 100i8, 100)?;
    ///     assert!(a.fits_add(&27) && !a.fits_add(&28));
    ///     Ok(())
    /// }
    /// ```
    ///
    /// # Proved
    ///
    /// What [`Fits::fits_add`] says, by the words of the type.
    fn fits_add(&self, other: &B) -> bool {
        self.hull().fits_add(other)
    }

    /// Returns true exactly when `self - *other` may be called; `other` may be outside the range.
    /// `O(1)`. Does not allocate.
    ///
    /// ```
    /// use intervallum::proved::examples::*;
    ///
    /// fn main() -> Result<(), std::boxed::Box<dyn std::error::Error>> {
    ///     let alloc = Global;
    ///     let a = IntervalSet::new(alloc, 3u8, 5)?;
    ///     assert!(a.fits_sub(&3) && !a.fits_sub(&4));
    ///     Ok(())
    /// }
    /// ```
    ///
    /// # Proved
    ///
    /// What [`Fits::fits_sub`] says, by the words of the type.
    fn fits_sub(&self, other: &B) -> bool {
        self.hull().fits_sub(other)
    }

    /// Returns true exactly when `self * *other` may be called; `other` may be outside the range.
    /// `O(1)`. Does not allocate.
    ///
    /// ```
    /// use intervallum::proved::examples::*;
    ///
    /// fn main() -> Result<(), std::boxed::Box<dyn std::error::Error>> {
    ///     let alloc = Global;
    ///     let a = IntervalSet::new(alloc, 100i8, 100)?;
    ///     assert!(a.fits_mul(&1) && !a.fits_mul(&2));
    ///     Ok(())
    /// }
    /// ```
    ///
    /// # Proved
    ///
    /// What [`Fits::fits_mul`] says, by the words of the type.
    fn fits_mul(&self, other: &B) -> bool {
        self.hull().fits_mul(other)
    }
}
