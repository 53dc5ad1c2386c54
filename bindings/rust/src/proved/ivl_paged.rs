// Written by bindings/rust/extract from crates/ivl_paged/src/lib.rt.
//! Sets of integers for many runs that change: [`PagedSet`], whose runs stand in short pages.
//!
//! An `IntervalSet` keeps its runs in one vector. This is the fastest to read and to merge, but an
//! edit that changes the number of runs moves all those above it. A [`PagedSet`] moves the runs of
//! one page. To contracts both are the same list of maximal runs.
//!
//! A [`PagedSet`] has edits, queries by value, by rank, by room and within a window, inclusion, the set
//! operations (as new sets and in place), equality, text and the runs. For what only an `IntervalSet` has, convert by `to_set`, and
//! back by `of_set`. Pages are split when they are full, joined with a neighbour when both have few runs,
//! and removed when they are empty.
//!
//! ```
//! use intervallum::proved::examples::*;
//!
//! fn main() -> Result<(), std::boxed::Box<dyn std::error::Error>> {
//!     let alloc = Global;
//!     let mut free = PagedSet::new(alloc);
//!     free.insert_interval(Interval::new(0i64, 999))?;
//!     assert!(free.remove(500)? && !free.contains(&500) && free.contains(&501));
//!     Ok(())
//! }
//! ```

#[allow(unused_imports)]
use crate::rattle::prelude::*;

mod combine;
mod gaps;
mod longests;
mod page;
mod page_list;
mod page_search;
pub mod paged_set;
mod pages;
mod parts;
mod sizes;
mod touched;

pub use paged_set::PagedSet;
