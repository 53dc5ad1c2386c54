// Written by bindings/rust/extract from crates/ivl_buffers/src/rank.rt.
//! Members by the number of members below them.

#[allow(unused_imports)]
use crate::rattle::prelude::*;
use crate::proved::ivl_buffers::pair::Pair;
use crate::proved::ivl_buffers::reading::{are_inside, set_of};
use crate::proved::ivl_buffers::writing::{OUT_OF_MEMORY, OUT_OF_RANGE};
use crate::proved::intervallum::width::Width;
use crate::rattle::std::alloc::{AllocError, Global};

/// Writes the number of members below `v` and returns 0, or returns an error code. `O(n log n)` for `n`
/// pairs, or `O(n)` if they ascend.
///
/// # Proved
///
/// The result is `out_of_range` exactly when a member is outside the range; else the number of members below `v` is written, and 0 returned, or it is `out_of_memory`. With a code nothing is written.
///
/// ```text
/// ensures { AnswersRank R.Bound.whole (R.Bound.value v) (Covers (map R.pair a.now))
///     (R.Bound.Output.size found.old) (R.Bound.Output.size found.new) result }
/// ```
///
/// Words: [`AnswersRank`](crate::definitions#AnswersRank), [`Covers`](crate::definitions#Covers).
pub fn rank<R: Pair>(
    alloc: Global,
    a: &[R],
    v: R::Bound,
    found: &mut <R::Bound as Width>::Output,
) -> i64 {
    if !are_inside(a) {
        return OUT_OF_RANGE;
    }
    match rank_of(alloc, a, v) {
        Ok(below) => {
            *found = below;
            0
        }
        Err(_) => OUT_OF_MEMORY,
    }
}

/// The number of members below `v`.
fn rank_of<R: Pair>(
    alloc: Global,
    a: &[R],
    v: R::Bound,
) -> Result<<R::Bound as Width>::Output, AllocError> {
    let set = set_of(alloc, a)?;
    Ok(set.rank(v))
}

/// Writes the member with exactly `i` members below it and returns 1, or returns 0 if there is none,
/// or an error code. `O(n log n)` for `n` pairs, or `O(n)` if they ascend.
///
/// # Proved
///
/// The result is `out_of_range` exactly when a member is outside the range; else the member with exactly `i` members below it is written, and 1 returned, or there are no more than `i` members, and 0 is returned, or it is `out_of_memory`. Without 1 nothing is written.
///
/// ```text
/// ensures { AnswersNth R.Bound.whole (R.Bound.Output.size i) (Covers (map R.pair a.now))
///     (R.Bound.value found.old) (R.Bound.value found.new) result }
/// ```
///
/// Words: [`AnswersNth`](crate::definitions#AnswersNth), [`Covers`](crate::definitions#Covers).
pub fn nth<R: Pair>(
    alloc: Global,
    a: &[R],
    i: <R::Bound as Width>::Output,
    found: &mut R::Bound,
) -> i64 {
    if !are_inside(a) {
        return OUT_OF_RANGE;
    }
    match member_at(alloc, a, i) {
        Ok(Some(member)) => {
            *found = member;
            1
        }
        Ok(None) => 0,
        Err(_) => OUT_OF_MEMORY,
    }
}

/// The member with exactly `i` members below it.
fn member_at<R: Pair>(
    alloc: Global,
    a: &[R],
    i: <R::Bound as Width>::Output,
) -> Result<Option<R::Bound>, AllocError> {
    let set = set_of(alloc, a)?;
    Ok(set.nth(i))
}
