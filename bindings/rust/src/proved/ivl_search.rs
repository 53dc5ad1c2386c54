// Written by bindings/rust/extract from crates/ivl_search/src/lib.rt.
//! All solutions of constraints `x + y = z` over finite domains, and the best one: see [`search`].
//!
//! ```
//! use intervallum::proved::examples::*;
//!
//! fn main() -> Result<(), std::boxed::Box<dyn std::error::Error>> {
//!     let alloc = Global;
//!     // x + y = z, for x and y from 0 to 2 and z 3 or 4: three points
//!     let low = IntervalSet::new(alloc, 0, 2)?;
//!     let domains = Vec::from_array(alloc, [ low.try_clone()?, low, IntervalSet::new(alloc, 3, 4)?])?;
//!     let constraints = [Constraint { x: 0, y: 1, z: 2 }];
//!     let limits = Limits { solutions: 100, nodes: 100_000 };
//!     let found = solutions(alloc, &domains, &constraints, limits)?;
//!     assert_eq!(found.end, End::All);
//!     assert_eq!(found.points.len(), 3);
//!     Ok(())
//! }
//! ```

#[allow(unused_imports)]
use crate::rattle::prelude::*;

pub mod search;
