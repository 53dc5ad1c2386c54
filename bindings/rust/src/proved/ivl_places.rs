// Written by bindings/rust/extract from crates/ivl_places/src/lib.rt.
//! Places in lists of runs, the words and lemmas: where a number, a neighbour, a fit or a window lies among the runs, how many
//! members lie before it, and what the list is after an edit there.

#[allow(unused_imports)]
use crate::rattle::prelude::*;

pub mod place;
