// Written by bindings/rust/extract from crates/ivl_interval/src/interval/fits.rt.
//! Whether the results of arithmetic are in the range.
//!
//! Each call makes a few tests of the bounds, since the least and the greatest result are results
//! of bounds. With an empty interval each call returns true. The original has no such calls.

#[allow(unused_imports)]
use crate::rattle::prelude::*;
use crate::proved::ivl_interval::interval::Interval;
use crate::proved::ivl_interval::ops::{Fits, IsEmpty};
use crate::proved::ivl_interval::width::Width;

/// Proved, with these words of the trait:
///
/// ```text
/// whole = { B.whole }
/// members = { IsBetween }
/// other_members = { IsBetween }
/// ```
///
/// Words: [`IsBetween`](crate::definitions#IsBetween).
impl<B: Width> Fits<Interval<B>> for Interval<B> {
    /// Returns true exactly when `self + other` may be called.
    ///
    /// ```
    /// use intervallum::proved::examples::*;
    ///
    /// fn main() -> Result<(), std::boxed::Box<dyn std::error::Error>> {
    ///     let alloc = Global;
    ///     let a = Interval::new(100i8, 100);
    ///     assert!(a.fits_add(&Interval::new(27, 27)) && !a.fits_add(&Interval::new(28, 28)));
    ///     Ok(())
    /// }
    /// ```
    ///
    /// # Proved
    ///
    /// What [`Fits::fits_add`] says, by the words of the type.
    fn fits_add(&self, other: &Interval<B>) -> bool {
        if self.is_empty() || other.is_empty() {
            return true;
        }
        has_sum(self.lb, other.lb) && has_sum(self.ub, other.ub)
    }

    /// Returns true exactly when `self - other` may be called.
    ///
    /// ```
    /// use intervallum::proved::examples::*;
    ///
    /// fn main() -> Result<(), std::boxed::Box<dyn std::error::Error>> {
    ///     let alloc = Global;
    ///     let a = Interval::new(3u8, 5);
    ///     assert!(a.fits_sub(&Interval::new(0, 3)) && !a.fits_sub(&Interval::new(0, 4)));
    ///     Ok(())
    /// }
    /// ```
    ///
    /// # Proved
    ///
    /// What [`Fits::fits_sub`] says, by the words of the type.
    fn fits_sub(&self, other: &Interval<B>) -> bool {
        if self.is_empty() || other.is_empty() {
            return true;
        }
        has_difference(self.lb, other.ub) && has_difference(self.ub, other.lb)
    }

    /// Returns true exactly when `self * other` may be called.
    ///
    /// ```
    /// use intervallum::proved::examples::*;
    ///
    /// fn main() -> Result<(), std::boxed::Box<dyn std::error::Error>> {
    ///     let alloc = Global;
    ///     let a = Interval::new(-2i8, 3);
    ///     assert!(a.fits_mul(&Interval::new(0, 42)) && !a.fits_mul(&Interval::new(0, 43)));
    ///     Ok(())
    /// }
    /// ```
    ///
    /// # Proved
    ///
    /// What [`Fits::fits_mul`] says, by the words of the type.
    fn fits_mul(&self, other: &Interval<B>) -> bool {
        if self.is_empty() || other.is_empty() {
            return true;
        }
        has_products(self.lb, other) && has_products(self.ub, other)
    }
}

/// Proved, with these words of the trait:
///
/// ```text
/// whole = { B.whole }
/// members = { IsBetween }
/// other_members = { λ x. Only (B.value x) }
/// ```
///
/// Words: [`IsBetween`](crate::definitions#IsBetween), [`Only`](crate::definitions#Only).
impl<B: Width> Fits<B> for Interval<B> {
    /// Returns true exactly when `self + *other` may be called; `other` may be outside the range.
    ///
    /// ```
    /// use intervallum::proved::examples::*;
    ///
    /// fn main() -> Result<(), std::boxed::Box<dyn std::error::Error>> {
    ///     let alloc = Global;
    ///     let a = Interval::new(1i8, 5);
    ///     assert!(a.fits_add(&-128) && !a.fits_add(&127));
    ///     Ok(())
    /// }
    /// ```
    ///
    /// # Proved
    ///
    /// What [`Fits::fits_add`] says, by the words of the type.
    fn fits_add(&self, other: &B) -> bool {
        if self.is_empty() {
            return true;
        }
        has_sum(self.lb, *other) && has_sum(self.ub, *other)
    }

    /// Returns true exactly when `self - *other` may be called; `other` may be outside the range.
    ///
    /// ```
    /// use intervallum::proved::examples::*;
    ///
    /// fn main() -> Result<(), std::boxed::Box<dyn std::error::Error>> {
    ///     let alloc = Global;
    ///     let a = Interval::new(3u8, 5);
    ///     assert!(a.fits_sub(&3) && !a.fits_sub(&4));
    ///     Ok(())
    /// }
    /// ```
    ///
    /// # Proved
    ///
    /// What [`Fits::fits_sub`] says, by the words of the type.
    fn fits_sub(&self, other: &B) -> bool {
        if self.is_empty() {
            return true;
        }
        has_difference(self.lb, *other) && has_difference(self.ub, *other)
    }

    /// Returns true exactly when `self * *other` may be called; `other` may be outside the range.
    ///
    /// ```
    /// use intervallum::proved::examples::*;
    ///
    /// fn main() -> Result<(), std::boxed::Box<dyn std::error::Error>> {
    ///     let alloc = Global;
    ///     let a = Interval::new(1i8, 64);
    ///     assert!(a.fits_mul(&1) && !a.fits_mul(&2));
    ///     Ok(())
    /// }
    /// ```
    ///
    /// # Proved
    ///
    /// What [`Fits::fits_mul`] says, by the words of the type.
    fn fits_mul(&self, other: &B) -> bool {
        if self.is_empty() {
            return true;
        }
        has_product(self.lb, *other) && has_product(self.ub, *other)
    }
}

fn has_sum<B: Width>(x: B, y: B) -> bool {
    x.checked_add(y).is_some()
}

fn has_difference<B: Width>(x: B, y: B) -> bool {
    x.checked_sub(y).is_some()
}

fn has_product<B: Width>(x: B, y: B) -> bool {
    x.checked_mul(y).is_some()
}

/// The products of a value and both bounds are in the range.
fn has_products<B: Width>(x: B, b: &Interval<B>) -> bool {
    has_product(x, b.lb) && has_product(x, b.ub)
}
