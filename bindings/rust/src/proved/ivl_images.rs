// Written by bindings/rust/extract from crates/ivl_images/src/lib.rt.
//! Lists of intervals in any order, and the results over each pair of runs of two sets, the words and lemmas: the images of sums,
//! differences and products, and the runs that they make.

#[allow(unused_imports)]
use crate::rattle::prelude::*;

pub mod op;
