// Written by bindings/rust/extract from crates/ivl_store/src/lib.rt.
//! A store of finite domains, narrowed by constraints `x + y = z`: see [`store`].
//!
//! ```
//! use intervallum::proved::examples::*;
//!
//! fn main() -> Result<(), std::boxed::Box<dyn std::error::Error>> {
//!     let alloc = Global;
//!     // x + y = z, for x, y and z from 0 to 9; then z is 0 or 1, and then x is 2 or 3
//!     let domains = Vec::from_array(alloc, [
//!         IntervalSet::new(alloc, 0, 9)?, IntervalSet::new(alloc, 0, 9)?, IntervalSet::new(alloc, 0, 9)?])?;
//!     let mut store: Store<i32> = Store::new(alloc, domains);
//!     let sum = Post::Require(Constraint { x: 0, y: 1, z: 2 });
//!     let cut = Post::Restrict(2, IntervalSet::new(alloc, 0, 1)?);
//!     let another = Post::Restrict(0, IntervalSet::new(alloc, 2, 3)?);
//!     // after each post, whether a domain is empty
//!     let replies = store.post_all(&Vec::from_array(alloc, [ sum, cut, another])?)?;
//!     assert!(replies == Vec::from_array(alloc, [ false, false, true])?);
//!     Ok(())
//! }
//! ```

#[allow(unused_imports)]
use crate::rattle::prelude::*;

pub mod store;
