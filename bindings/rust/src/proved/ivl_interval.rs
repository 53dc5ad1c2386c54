// Written by bindings/rust/extract from crates/ivl_interval/src/lib.rt.
//! Closed, bounded intervals of integers, generic over the type of their bounds.
//!
//! An [`interval::Interval`] is the set of the integers from a lower to an upper bound. The traits
//! of [`ops`] define the operations on sets of integers, and [`width`] the types of bounds. No call
//! allocates.
//!
//! ```
//! use intervallum::proved::examples::*;
//!
//! fn main() -> Result<(), std::boxed::Box<dyn std::error::Error>> {
//!     let alloc = Global;
//!     let a = Interval::new(3i32, 8);
//!     assert!(a.contains(&8) && !a.contains(&9));
//!     Ok(())
//! }
//! ```

#[allow(unused_imports)]
use crate::rattle::prelude::*;

pub mod interval;
pub mod kleene;
pub mod ops;
pub mod optional;
pub mod width;
