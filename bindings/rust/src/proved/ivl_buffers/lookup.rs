// Written by bindings/rust/extract from crates/ivl_buffers/src/lookup.rt.
//! The least member from a number on, and the lowest consecutive members.

#[allow(unused_imports)]
use crate::rattle::prelude::*;
use crate::proved::ivl_buffers::pair::Pair;
use crate::proved::ivl_buffers::reading::{are_inside, set_of};
use crate::proved::ivl_buffers::writing::{OUT_OF_MEMORY, OUT_OF_RANGE};
use crate::proved::intervallum::interval::Interval;
use crate::proved::intervallum::ops::Bounded;
use crate::proved::intervallum::width::{SizeNumber, Width};
use crate::rattle::std::alloc::{AllocError, Global};

/// Writes the least member that is at least `v`. Returns true exactly when there is one. `O(n)`,
/// does not allocate.
///
/// # Proved
///
/// After true the number written is the least member that is at least `v`; after false there is none, and nothing is written.
///
/// ```text
/// ensures { AnswersNext (R.Bound.value v) (Covers (map R.pair runs.now)) (R.Bound.value found.old) (R.Bound.value found.new) result }
/// ```
///
/// Words: [`AnswersNext`](crate::definitions#AnswersNext), [`Covers`](crate::definitions#Covers).
pub fn next_from<R: Pair>(runs: &[R], v: R::Bound, found: &mut R::Bound) -> bool {
    match least_from(runs, v) {
        Some(least) => {
            *found = least;
            true
        }
        None => false,
    }
}

/// The least number in some pair of the list that is at least `v`.
fn least_from<R: Pair>(runs: &[R], v: R::Bound) -> Option<R::Bound> {
    let mut least = None;
    for run in runs {
        least = lesser(least, least_in(*run, v));
    }
    least
}

/// Returns the least number of a pair that is at least `v`. `O(1)`.
///
/// # Proved
///
/// The result is the least number of the run that is at least `v`, or `None` if there is none.
///
/// ```text
/// ensures { IsNextIn (R.Bound.value v) (IsBetween (R.pair run)) (option_map R.Bound.value result) }
/// ```
///
/// Words: [`IsNextIn`](crate::definitions#IsNextIn), [`IsBetween`](crate::definitions#IsBetween).
pub fn least_in<R: Pair>(run: R, v: R::Bound) -> Option<R::Bound> {
    let lower = run.lower();
    let start = if lower < v { v } else { lower };
    if start <= run.upper() {
        Some(start)
    } else {
        None
    }
}

/// The lesser of two numbers, or the only one.
fn lesser<B: Width>(a: Option<B>, b: Option<B>) -> Option<B> {
    match (a, b) {
        (Some(x), Some(y)) => { if x <= y { Some(x) } else { Some(y) } }
        (Some(x), None) => Some(x),
        (None, other) => other,
    }
}

/// Writes the lowest `count` consecutive members and returns 1, or returns 0 if there are none, or
/// an error code. `O(n log n)` for `n` pairs, or `O(n)` if they ascend.
///
/// # Proved
///
/// The result is `out_of_range` exactly when a member is outside the range; else the lowest `count` members in a row are written, and 1 returned, or there are none, and 0 is returned, or it is `out_of_memory`. Without 1 nothing is written.
///
/// ```text
/// ensures { AnswersFit R.Bound.whole (R.Bound.Output.size count) (Covers (map R.pair a.now)) (R.pair found.old) (R.pair found.new) result }
/// ```
///
/// Words: [`AnswersFit`](crate::definitions#AnswersFit), [`Covers`](crate::definitions#Covers).
pub fn first_fit<R: Pair>(
    alloc: Global,
    a: &[R],
    count: <R::Bound as Width>::Output,
    found: &mut R,
) -> i64 {
    if !are_inside(a) {
        return OUT_OF_RANGE;
    }
    match lowest_fit(alloc, a, count) {
        Ok(Some(run)) => {
            // for the prover: its bounds are in the range
            run.in_whole();
            *found = R::of(Bounded::lower(&run), Bounded::upper(&run));
            1
        }
        Ok(None) => 0,
        Err(_) => OUT_OF_MEMORY,
    }
}

/// The lowest `count` consecutive members; `None` if there are none or `count` is 0.
fn lowest_fit<R: Pair>(
    alloc: Global,
    a: &[R],
    count: <R::Bound as Width>::Output,
) -> Result<Option<Interval<R::Bound>>, AllocError> {
    if count.number() == 0 {
        return Ok(None);
    }
    let set = set_of(alloc, a)?;
    Ok(set.first_fit(count))
}
