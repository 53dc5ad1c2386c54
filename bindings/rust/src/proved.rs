//! The proved surface as it is: modules that a script takes out of the proved source, body for body.
//!
//! Calls that allocate take the allocator [`Global`] and return a `Result`, whose only error is a failed allocation
//! ([`AllocError`]); borrowed operands, and a set that was to be changed, are then unchanged. A call with a condition says so,
//! and which public test tells whether it holds. Debug builds test the condition and panic; other builds do not, and a call
//! whose condition is broken then panics or has a wrong answer, but never undefined behaviour, since all of it is safe Rust.
//!
//! | Module | |
//! |---|---|
//! | [`prelude`] | the types and every trait of their operations, for glob imports |
//! | [`interval`], [`interval_set`], [`ops`], [`width`] | intervals, sets, their operations, and the types of bounds |
//! | [`steps`], [`sweep`] | walks over the runs of sets, and sets from lists of intervals, as parts for calls of your own |
//! | [`ivl_paged`] | sets for many runs that change: their runs stand in pages |
//! | [`ivl_map`] | maps from integers to values, stored as maximal runs of equal values |
//! | [`ivl_within`] | sums and differences that are cut to a window |
//! | [`ivl_linear`] | linear rules of any length, `3 * x - 2 * y + z <= 7` among them, and what narrowing by one leaves |
//! | [`ivl_store`] | domains of variables, narrowed by constraints `x + y = z` |
//! | [`ivl_rules`] | rules of two or three variables, `x + 3 <= y` or `x != y` among them, and what narrowing by one leaves |
//! | [`ivl_network`] | domains and such rules that are added one by one, narrowed within a budget, and taken back by marks |
//! | [`ivl_search`] | the points that solve such constraints or satisfy rules: all of them, or as many as limits allow |
//! | [`ivl_expr`] | expressions over sets, for range analysis |
//! | `ivl_buffers` | sets as lists of pairs in the caller's memory, which the library for C has; where `usize` has 64 bits |
//! | `ivl_json` | JSON, with the feature `json` |
//!
//! ```
//! use intervallum::proved::prelude::*;
//! use intervallum::proved::{AllocError, Global};
//!
//! fn main() -> Result<(), AllocError> {
//!     let a = IntervalSet::new(Global, 1, 2)?;
//!     let b = IntervalSet::new(Global, 3, 5)?;
//!     assert_eq!(a.union(&b)?.size(), 5u32);
//!     Ok(())
//! }
//! ```
//!
//! # Contracts
//!
//! The block "Proved" of a method is its contract, in the words of the source: what it requires of its caller and what it
//! ensures of its result, clause by clause. [`definitions`](crate::definitions) explains the words.
#![allow(missing_docs)]
// proofs state what holds in a loop by its label
#![allow(unused_labels)]
// the bodies stand as they were proved
#![allow(clippy::style, clippy::complexity)]
// a link that the source needs may be one that Rust could do without
#![allow(rustdoc::redundant_explicit_links)]

pub mod intervallum;
pub mod ivl_expr;
pub mod ivl_images;
pub mod ivl_interval;
#[cfg(feature = "json")]
pub mod ivl_json;
// the source imports two traits for whose methods Rust does not ask; it counts bytes of lists up to 2^61 pairs
#[allow(unused_imports)]
#[cfg(target_pointer_width = "64")]
pub mod ivl_buffers;
pub mod ivl_linear;
pub mod ivl_map;
// the source imports a trait for whose methods Rust does not ask
#[allow(unused_imports)]
pub mod ivl_merges;
pub mod ivl_network;
pub mod ivl_paged;
pub mod ivl_places;
pub mod ivl_rules;
pub mod ivl_search;
pub mod ivl_store;
pub mod ivl_within;

pub use crate::rattle::alloc::{AllocError, Global};
#[doc(no_inline)]
pub use intervallum::{
    Interval, IntervalSet, interval, interval_set, kleene, ops, optional, prelude, steps, sweep, width,
};

/// What the doc examples of this module have in scope.
#[doc(hidden)]
pub mod examples {
    pub use super::interval_set::{IntoRuns, Members};
    pub use super::ivl_expr::{EvalFault, Expr, eval};
    #[cfg(feature = "json")]
    pub use super::ivl_json::{ItemFault, JsonFault, JsonForm};
    pub use super::ivl_linear::linear::narrowing::{rest_of_teller, rest_of_term};
    pub use super::ivl_linear::linear::sums::{SumEnds, ends_of};
    pub use super::ivl_linear::linear::{Relation, Term, first_unknown, is_light, is_over_different};
    pub use super::ivl_map::{IntervalMap, MapValue};
    pub use super::ivl_merges::merges;
    pub use super::ivl_merges::sink::Places;
    pub use super::ivl_network::network::{Network, Settled};
    pub use super::ivl_paged::PagedSet;
    pub use super::ivl_rules::rules::Rule;
    pub use super::ivl_rules::rules::narrowing::{lone_loss, narrow, narrowed_at_places, narrowed_at_places_in, takes_nothing};
    pub use super::ivl_rules::rules::windows::{narrowed_to_window, narrowed_to_window_in};
    pub use super::ivl_search::search::rules::all_different;
    pub use super::ivl_search::search::{
        Best, End, Found, Limits, SearchFault, all_distinct, count, greatest, least, solutions, try_solutions,
    };
    pub use super::ivl_store::store::narrowed_sets::{narrowed_by, narrowed_by_sum, narrowed_by_sum_in, narrowed_to};
    pub use super::ivl_store::store::{Constraint, Lost, Post, Spares, Store, StoreFault};
    pub use super::ivl_within::within::{
        Combined, add_within, differences_in_window, pair_in_window, results_in_set, results_unless_all, sub_within,
        sums_in_window,
    };
    pub use super::kleene::SKleene;
    pub use super::prelude::*;
    pub use super::steps::{Place, Probes, Walk, common, find, unite};
    pub use super::sweep::{Op, coalesce, images};
    pub use super::width::addresses::{address_of, number_of_address};
    pub use super::width::characters::{character_of, number_of};
    pub use super::width::full::Full;
    pub use super::{AllocError, Global};
    pub use crate::rattle::boxed::Box;
    pub use crate::rattle::clone::Clone as _;
    pub use crate::rattle::vec::Vec;
    pub use core::net::Ipv4Addr;
    #[cfg(feature = "json")]
    pub use {core::str::FromStr, serde_json::Value};
}
