// Written by bindings/rust/extract from crates/ivl_store_lines/src/relation.rt.
//! How a rule relates two variables.

#[allow(unused_imports)]
use crate::rattle::prelude::*;

/// What a rule says of the numbers of two variables, the first of which is shifted.
#[derive(Clone, Copy)]
pub enum Relation {
    /// `x + by = y`.
    Shifted,
    /// `x + by <= y`.
    AtMost,
    /// `x + by != y`.
    Differs,
}
