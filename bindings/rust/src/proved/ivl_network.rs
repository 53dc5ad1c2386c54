// Written by bindings/rust/extract from crates/ivl_network/src/lib.rt.
//! Domains and rules between them that are added one by one: see [`network`].
//!
//! ```
//! use intervallum::proved::examples::*;
//!
//! fn main() -> Result<(), std::boxed::Box<dyn std::error::Error>> {
//!     let alloc = Global;
//!     // x + 3 <= y, for x and y from 0 to 9
//!     let mut network: Network<i32> = Network::new(alloc);
//!     let x = network.add_variable(IntervalSet::new(alloc, 0, 9)?)?;
//!     let y = network.add_variable(IntervalSet::new(alloc, 0, 9)?)?;
//!     network.require(Rule::AtMost { x, y, by: 3 })?;
//!     assert_eq!(network.settle(10)?, Settled::All);
//!     assert!(network.domains()[x] == IntervalSet::new(alloc, 0, 6)?);
//!     Ok(())
//! }
//! ```

#[allow(unused_imports)]
use crate::rattle::prelude::*;

pub mod network;
