// Written by bindings/rust/extract from crates/ivl_images/src/op.rt.
//! The operation of a list of images.

#[allow(unused_imports)]
use crate::rattle::prelude::*;

/// The operation that `images` applies.
///
/// ```
/// use intervallum::proved::examples::*;
///
/// fn main() -> Result<(), std::boxed::Box<dyn std::error::Error>> {
///     let alloc = Global;
///     let a = IntervalSet::new(alloc, 1, 2)?;
///     assert!(a.fits_mul(&a), "the products fit");
///     let products = images(&a, &a, Op::Product)?;
///     assert!(coalesce(alloc, products)? == IntervalSet::new(alloc, 1, 4)?);
///     Ok(())
/// }
/// ```
#[derive(Clone, Copy, PartialEq, Eq, Debug)]
pub enum Op {
    /// The first plus the second.
    Sum,
    /// The first minus the second.
    Difference,
    /// The first times the second.
    Product,
}
