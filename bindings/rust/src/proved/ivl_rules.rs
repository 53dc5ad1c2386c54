// Written by bindings/rust/extract from crates/ivl_rules/src/lib.rt.
//! Rules between two or three variables, and what narrowing by one leaves of their domains: see [`rules`].
//!
//! ```
//! use intervallum::proved::examples::*;
//!
//! fn main() -> Result<(), std::boxed::Box<dyn std::error::Error>> {
//!     let alloc = Global;
//!     // x + 3 <= y, for x and y from 0 to 9
//!     let mut domains = Vec::from_array(alloc, [ IntervalSet::new(alloc, 0, 9)?, IntervalSet::new(alloc, 0, 9)?])?;
//!     let before = Rule::AtMost { x: 0, y: 1, by: 3 };
//!     assert!(narrow(&mut domains, &before)?);
//!     assert!(domains[0] == IntervalSet::new(alloc, 0, 6)? && domains[1] == IntervalSet::new(alloc, 3, 9)?);
//!     Ok(())
//! }
//! ```

#[allow(unused_imports)]
use crate::rattle::prelude::*;

pub mod rules;
