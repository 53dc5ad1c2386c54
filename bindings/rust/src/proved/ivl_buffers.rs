// Written by bindings/rust/extract from crates/ivl_buffers/src/lib.rt.
//! Sets as plain lists of pairs, in the caller's memory: what the library for C computes, generic over
//! the type of a pair.
//!
//! A list of pairs stands for the set of its members: it may be in any order and overlap, and a
//! crossed pair has no member. A list of runs has no crossed pair, its pairs ascend with at least
//! one number missing between neighbours, and all are in the range; every list that a call writes
//! is one. A call that makes a set returns its number of runs, and writes them if there is room for
//! all. A query on two lists returns 1 for yes and 0 for no. A negative result is an error code,
//! and then nothing is written.

#[allow(unused_imports)]
use crate::rattle::prelude::*;

pub mod beside;
pub mod comparisons;
pub mod edits;
pub mod lookup;
pub mod merging;
pub mod pair;
pub mod products;
pub mod rank;
pub mod reading;
pub mod run_lists;
pub mod set_calls;
pub mod sorted_lookup;
pub mod sums;
pub mod writing;
