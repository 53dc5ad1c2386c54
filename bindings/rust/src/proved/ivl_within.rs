// Written by bindings/rust/extract from crates/ivl_within/src/lib.rt.
//! Sums and differences of sets, cut to the range of the bounds or to a window: see [`within`].
//!
//! ```
//! use intervallum::proved::examples::*;
//!
//! fn main() -> Result<(), std::boxed::Box<dyn std::error::Error>> {
//!     let alloc = Global;
//!     let a: IntervalSet<i16> = [(0, 0), (10, 12), (90, 95)].to_interval_set(alloc)?;
//!     let b: IntervalSet<i16> = [(1, 2), (50, 60)].to_interval_set(alloc)?;
//!     let sums = sums_in_window(&a, &b, &Interval::new(12, 62))?;
//!     assert!(sums == [(12, 14), (50, 62)].to_interval_set(alloc)?);
//!     Ok(())
//! }
//! ```

#[allow(unused_imports)]
use crate::rattle::prelude::*;

pub mod within;
