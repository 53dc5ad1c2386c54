// Written by bindings/rust/extract from crates/ivl_merges/src/lib.rt.
//! Merges of lists of runs: union, intersection, difference, symmetric difference and complement, over
//! slices of whatever is a run, and into whatever list of runs grows.

#[allow(unused_imports)]
use crate::rattle::prelude::*;

pub mod merges;
pub mod pair;
pub mod sink;
