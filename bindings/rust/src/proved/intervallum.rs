// Written by bindings/rust/extract from crates/intervallum/src/lib.rt.
//! Sets of integers, stored as sorted runs that neither overlap nor touch, generic over the type of
//! their bounds. A run is a closed interval.
//!
//! Every [`IntervalSet`] made by public calls is the one list of maximal runs of its members, so
//! `==` compares members and `size` is their number.
//!
//! ```
//! use intervallum::proved::examples::*;
//!
//! fn main() -> Result<(), std::boxed::Box<dyn std::error::Error>> {
//!     let alloc = Global;
//!     let a = IntervalSet::new(alloc, 1, 2)?;
//!     let b = IntervalSet::new(alloc, 3, 5)?;
//!     let both = a.union(&b)?;                  // [1..5], one run
//!     assert_eq!(both.interval_count(), 1);
//!     assert_eq!(both.size(), 5u32);
//!     Ok(())
//! }
//! ```

#[allow(unused_imports)]
use crate::rattle::prelude::*;
pub use crate::proved::ivl_interval::{interval, kleene, ops, optional, width};

pub mod interval_set;
pub mod prelude;
pub mod steps;
pub mod sweep;

pub use interval::Interval;
pub use interval_set::IntervalSet;
