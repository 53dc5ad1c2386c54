// Written by bindings/rust/extract from crates/ivl_buffers/src/pair.rt.
//! Pairs of bounds as C has them.

#[allow(unused_imports)]
use crate::rattle::prelude::*;
pub use crate::proved::ivl_merges::pair::Pair;

/// The numbers from `lower` to `upper`.
#[repr(C)]
#[derive(Clone, Copy)]
pub struct PairI64 {
    pub lower: i64,
    pub upper: i64,
}

/// Proved, with these words of the trait:
///
/// ```text
/// pair = { λ r. (r.lower, r.upper) }
/// ```
impl Pair for PairI64 {
    type Bound = i64;

    fn lower(self) -> i64 {
        self.lower
    }

    fn upper(self) -> i64 {
        self.upper
    }

    fn of(lower: i64, upper: i64) -> PairI64 {
        PairI64 { lower, upper }
    }
}

/// The numbers from `lower` to `upper`.
#[repr(C)]
#[derive(Clone, Copy)]
pub struct PairU64 {
    pub lower: u64,
    pub upper: u64,
}

/// Proved, with these words of the trait:
///
/// ```text
/// pair = { λ r. (pos r.lower, pos r.upper) }
/// ```
impl Pair for PairU64 {
    type Bound = u64;

    fn lower(self) -> u64 {
        self.lower
    }

    fn upper(self) -> u64 {
        self.upper
    }

    fn of(lower: u64, upper: u64) -> PairU64 {
        PairU64 { lower, upper }
    }
}
