// Written by bindings/rust/extract from crates/ivl_json/src/lib.rt.
//! Intervals and interval sets as JSON values, both ways.
//!
//! [`JsonForm`] says what is written, what is accepted, and what is refused by which [`JsonFault`].
//!
//! ```
//! use intervallum::proved::examples::*;
//!
//! fn main() -> Result<(), std::boxed::Box<dyn std::error::Error>> {
//!     let alloc = Global;
//!     let value = Value::from_str("[[3, 5], [1, 2]]")?;
//!     let set = IntervalSet::<u8>::from_value(alloc, &value)?;
//!     assert_eq!(set.to_value(alloc)?.to_string().as_str(), "[[1,5]]");
//!     Ok(())
//! }
//! ```

#[allow(unused_imports)]
use crate::rattle::prelude::*;

pub mod faults;
pub mod form;
mod intervals;
pub mod json;

mod numbers;
mod sets;

pub use faults::{ItemFault, JsonFault};
pub use form::JsonForm;
