// Written by bindings/rust/extract from crates/ivl_linear/src/lib.rt.
//! Linear rules of any length between variables, and what narrowing by one leaves of their domains: see [`linear`].
//!
//! ```
//! use intervallum::proved::ivl_linear::linear::narrowing::narrow;
//! use intervallum::proved::examples::*;
//!
//! fn main() -> Result<(), std::boxed::Box<dyn std::error::Error>> {
//!     let alloc = Global;
//!     // 3 * x - 2 * y <= 4, for x from 0 to 9 and y from 0 to 5
//!     let mut domains = Vec::from_array(alloc, [ IntervalSet::new(alloc, 0, 9)?, IntervalSet::new(alloc, 0, 5)?])?;
//!     let terms = [Term { coefficient: 3, variable: 0 }, Term { coefficient: -2, variable: 1 }];
//!     assert!(narrow(&mut domains, &terms, Relation::AtMost(4))?);
//!     assert!(domains[0] == IntervalSet::new(alloc, 0, 4)? && domains[1] == IntervalSet::new(alloc, 0, 5)?);
//!     Ok(())
//! }
//! ```

#[allow(unused_imports)]
use crate::rattle::prelude::*;

pub mod linear;
