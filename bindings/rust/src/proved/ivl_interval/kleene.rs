// Written by bindings/rust/extract from crates/ivl_interval/src/kleene.rt.
//! Three-valued truth.

#[allow(unused_imports)]
use crate::rattle::prelude::*;

/// The result of a test that may be undecided, such as [`entail`](crate::proved::ivl_interval::ops::Entailment).
///
/// ```
/// use intervallum::proved::examples::*;
///
/// fn main() -> Result<(), std::boxed::Box<dyn std::error::Error>> {
///     let alloc = Global;
///     let (a, b) = (Interval::new(1i32, 5), Interval::new(4, 9));
///     assert_eq!(a.entail(&b), SKleene::Unknown);
///     Ok(())
/// }
/// ```
#[derive(Clone, Copy, PartialEq, Eq, Debug)]
pub enum SKleene {
    /// True.
    True,
    /// False.
    False,
    /// Neither.
    Unknown,
}
