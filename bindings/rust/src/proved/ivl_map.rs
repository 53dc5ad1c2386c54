// Written by bindings/rust/extract from crates/ivl_map/src/lib.rt.
//! Maps from integers to values, stored as maximal runs of equal values.
//!
//! An [`IntervalMap`] knows for each number at most one value. Numbers next to each other with equal
//! values stand in one entry, so a map of a few long runs is small, however many numbers it has.
//!
//! ```
//! use intervallum::proved::examples::*;
//!
//! fn main() -> Result<(), std::boxed::Box<dyn std::error::Error>> {
//!     let alloc = Global;
//!     let mut owners: IntervalMap<u32, char> = IntervalMap::empty(alloc);
//!     owners.insert(Interval::new(0, 9), 'a')?;
//!     owners.insert(Interval::new(4, 5), 'b')?;
//!     assert!(owners.get(&3) == Some(&'a') && owners.get(&4) == Some(&'b'));
//!     Ok(())
//! }
//! ```

#[allow(unused_imports)]
use crate::rattle::prelude::*;

mod edits;
pub mod interval_map;
mod merge;
mod search;
mod updates;
pub mod value;
mod walks;
mod writes;

pub use interval_map::IntervalMap;
pub use value::MapValue;
