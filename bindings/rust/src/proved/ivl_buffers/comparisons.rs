// Written by bindings/rust/extract from crates/ivl_buffers/src/comparisons.rt.
//! Queries on lists, which make the sets of their members.

#[allow(unused_imports)]
use crate::rattle::prelude::*;
use crate::proved::ivl_buffers::merging::{difference, intersection};
use crate::proved::ivl_buffers::pair::Pair;
use crate::proved::ivl_buffers::reading::{are_inside, set_of};
use crate::proved::ivl_buffers::run_lists::can_walk_both;
use crate::proved::ivl_buffers::writing::{OUT_OF_MEMORY, OUT_OF_RANGE};
use crate::proved::intervallum::ops::{Cardinality, Overlap, Subset};
use crate::proved::intervallum::width::Width;
use crate::rattle::std::alloc::{AllocError, Global};

/// What is asked of two lists.
#[derive(Clone, Copy)]
pub enum Asking {
    /// Whether each member of the first is one of the second.
    Within,
    /// Whether some number is a member of both.
    Meets,
    /// Whether the two have the same members.
    Alike,
}

/// Returns 1 for yes, 0 for no, or an error code. `O(n + m)` if both are lists of runs, else
/// `O(n log n + m log m)`.
///
/// # Proved
///
/// The result is `out_of_range` exactly when a member is outside the range; else 1 if what is asked holds of the members and 0 if not, or `out_of_memory`.
///
/// ```text
/// ensures { AnswersQuestion R.Bound.whole (Union (Covers (map R.pair a.now)) (Covers (map R.pair b.now)))
///     (HoldsOf asking (Covers (map R.pair a.now)) (Covers (map R.pair b.now))) result }
/// ```
///
/// Words: [`AnswersQuestion`](crate::definitions#AnswersQuestion), [`Union`](crate::definitions#Union), [`Covers`](crate::definitions#Covers), [`HoldsOf`](crate::definitions#HoldsOf).
pub fn ask<R: Pair>(alloc: Global, asking: Asking, a: &[R], b: &[R]) -> i64 {
    if can_walk_both(a, b) {
        return if holds(asking, a, b) { 1 } else { 0 };
    }
    if !are_inside(a) || !are_inside(b) {
        return OUT_OF_RANGE;
    }
    match asked(alloc, asking, a, b) {
        Ok(true) => 1,
        Ok(false) => 0,
        Err(_) => OUT_OF_MEMORY,
    }
}

/// What is asked of two lists of runs.
fn holds<R: Pair>(asking: Asking, a: &[R], b: &[R]) -> bool {
    match asking {
        Asking::Within => is_within(a, b),
        Asking::Meets => meets(a, b),
        Asking::Alike => is_within(a, b) && is_within(b, a),
    }
}

/// True exactly when the difference of two lists of runs, which is only counted, has no run.
fn is_within<R: Pair>(a: &[R], b: &[R]) -> bool {
    difference(a, b, &mut []) == 0
}

/// True exactly when the intersection of two lists of runs, which is only counted, has a run.
fn meets<R: Pair>(a: &[R], b: &[R]) -> bool {
    intersection(a, b, &mut []) > 0
}

fn asked<R: Pair>(alloc: Global, asking: Asking, a: &[R], b: &[R]) -> Result<bool, AllocError> {
    let left = set_of(alloc, a)?;
    let right = set_of(alloc, b)?;
    Ok(match asking {
        Asking::Within => left.is_subset(&right),
        Asking::Meets => left.overlap(&right),
        Asking::Alike => left == right,
    })
}

/// Writes the number of members and returns 0, or returns an error code. `O(n log n)` for `n` pairs, or
/// `O(n)` if they ascend.
///
/// # Proved
///
/// The result is `out_of_range` exactly when a member is outside the range; else the number of members is written, and 0 returned, or it is `out_of_memory`. With a code nothing is written.
///
/// ```text
/// ensures { AnswersSize R.Bound.whole (Covers (map R.pair a.now))
///     (R.Bound.Output.size size.old) (R.Bound.Output.size size.new) result }
/// ```
///
/// Words: [`AnswersSize`](crate::definitions#AnswersSize), [`Covers`](crate::definitions#Covers).
pub fn count<R: Pair>(alloc: Global, a: &[R], size: &mut <R::Bound as Width>::Output) -> i64 {
    if !are_inside(a) {
        return OUT_OF_RANGE;
    }
    match set_of(alloc, a) {
        Ok(set) => {
            *size = set.size();
            0
        }
        Err(_) => OUT_OF_MEMORY,
    }
}
