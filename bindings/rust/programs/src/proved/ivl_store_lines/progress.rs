// Written by bindings/rust/extract from crates/ivl_store_lines/src/progress.rt.
//! How far domains are narrowed.

#[allow(unused_imports)]
use crate::rattle::prelude::*;

/// How far the lines so far have narrowed the domains.
#[derive(Clone, Copy)]
pub enum Progress {
    /// No rule narrows a domain any further.
    Complete,
    /// The last line that narrows used up its narrowings.
    Budget,
}
