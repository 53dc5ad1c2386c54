// Written by bindings/rust/extract from crates/ivl_buffers/src/run_lists.rt.
//! Lists that are already the runs of a set.

#[allow(unused_imports)]
use crate::rattle::prelude::*;
use crate::proved::ivl_buffers::pair::Pair;
use crate::proved::intervallum::interval::Interval;
use crate::proved::intervallum::ops::Range;
use crate::proved::intervallum::width::Width;
use crate::proved::ivl_merges::merges::one_if;

/// Returns true exactly when no pair is crossed, the pairs ascend with at least one number missing
/// between neighbours, and all are in the range. `O(n)`, does not allocate.
///
/// # Proved
///
/// True exactly when the pairs are not crossed, ascend, lie in the range, and neither overlap nor touch.
///
/// ```text
/// ensures { IsTrue result ↔ IsRunListIn R.Bound.whole (map R.pair runs.now) }
/// ```
///
/// Words: [`IsRunListIn`](crate::definitions#IsRunListIn).
pub fn is_run_list<R: Pair>(runs: &[R]) -> bool {
    has_ends(runs) & are_linked(runs)
}

/// The most runs of a list that is walked, so that the number of runs of an answer fits `i64`.
const MOST_RUNS: usize = 1 << 61;

/// Returns true only if the pairs are a list of runs, and their number leaves room to count with.
pub(crate) fn can_walk<R: Pair>(runs: &[R]) -> bool {
    runs.len() <= MOST_RUNS && is_run_list(runs)
}

/// Returns true only if both are lists of runs, and their numbers leave room to count with.
pub(crate) fn can_walk_both<R: Pair>(a: &[R], b: &[R]) -> bool {
    a.len() <= MOST_RUNS && b.len() <= MOST_RUNS && are_run_lists(a, b)
}

/// True exactly when both are lists of runs.
fn are_run_lists<R: Pair>(a: &[R], b: &[R]) -> bool {
    has_ends(a) & has_ends(b) & are_both_linked(a, b)
}

/// True exactly when the first pair, if there is one, does not start below the range, and the last
/// one is a run in the range.
fn has_ends<R: Pair>(runs: &[R]) -> bool {
    if runs.is_empty() {
        return true;
    }
    let (first, last) = (runs[0], runs[runs.len() - 1]);
    R::Bound::min_value() <= first.lower() && is_run(last)
}

/// True exactly when the pair is not crossed and its bounds are in the range.
fn is_run<R: Pair>(run: R) -> bool {
    run.lower() <= run.upper() && Interval::in_range(run.lower(), run.upper())
}

/// The fewest pairs that are tested in parts.
const FEWEST_IN_PARTS: usize = 64;

/// True exactly when each pair of both lists but their last is linked to the next.
fn are_both_linked<R: Pair>(a: &[R], b: &[R]) -> bool {
    let count = a.len().min(b.len());
    if count < FEWEST_IN_PARTS {
        return are_linked(a) & are_linked(b);
    }
    let part = (count - 1) / 2;
    let (first, more) = split_at_pair(a, part);
    let (second, a_rest) = split_at_pair(more, part);
    let (third, others) = split_at_pair(b, part);
    let (fourth, b_rest) = split_at_pair(others, part);
    four_are_linked(first, second, third, fourth) & are_linked(a_rest) & are_linked(b_rest)
}

/// True exactly when each pair but the last is linked to the next.
fn are_linked<R: Pair>(runs: &[R]) -> bool {
    if runs.len() < FEWEST_IN_PARTS {
        return are_linked_in_turn(runs);
    }
    let part = (runs.len() - 1) / 4;
    let (first, others) = split_at_pair(runs, part);
    let (second, more) = split_at_pair(others, part);
    let (third, few) = split_at_pair(more, part);
    let (fourth, rest) = split_at_pair(few, part);
    four_are_linked(first, second, third, fourth) & are_linked_in_turn(rest)
}

/// The pairs up to the one at a place, and those from it on: it is in both.
fn split_at_pair<R: Pair>(runs: &[R], i: usize) -> (&[R], &[R]) {
    (&runs[..i + 1], &runs[i..])
}

/// True exactly when each pair but the last of each of four parts, which are equally long, is linked to
/// the next. The four are read side by side: so none waits for the memory of another, and no branch
/// hangs on the values.
fn four_are_linked<R: Pair>(first: &[R], second: &[R], third: &[R], fourth: &[R]) -> bool {
    let (more, others, rest) = (
        as_long_as(second, first),
        as_long_as(third, first),
        as_long_as(fourth, first),
    );
    let last = first.len() - 1;
    let mut are_all = true;
    for i in 0..last {
        let are_two = is_linked_at(first, i) & is_linked_at(more, i);
        let are_more = is_linked_at(others, i) & is_linked_at(rest, i);
        are_all = are_all & are_two & are_more;
    }
    are_all
}

/// The same pairs, as many as another list has: a compiler that knows it need not test each index.
fn as_long_as<'a, R: Pair>(runs: &'a [R], other: &[R]) -> &'a [R] {
    &runs[..other.len()]
}

/// As `are_linked`, from the first pair on.
fn are_linked_in_turn<R: Pair>(runs: &[R]) -> bool {
    if runs.is_empty() {
        return true;
    }
    let last = runs.len() - 1;
    let mut are_all = true;
    for i in 0..last {
        are_all = are_all & is_linked_at(runs, i);
    }
    are_all
}

/// True exactly when the pair at a place is linked to the next: whether it is and those after it are
/// linked decides of those from it on.
fn is_linked_at<R: Pair>(runs: &[R], i: usize) -> bool {
    is_linked(runs[i], runs[i + 1])
}

/// True exactly when a pair is not crossed, and the number above it is in the range and below another
/// pair.
fn is_linked<R: Pair>(run: R, next: R) -> bool {
    let is_open = run.lower() <= run.upper();
    is_open & is_below(run, next)
}

/// True exactly when the number above a pair is in the range and below another pair.
fn is_below<R: Pair>(run: R, next: R) -> bool {
    match run.upper().checked_add(R::Bound::one()) {
        Some(above) => above < next.lower(),
        None => false,
    }
}

/// Returns true exactly when some number lies above one run and below another. `O(1)`.
///
/// # Proved
///
/// True exactly when a number lies between the end of `last` and the start of `run`.
///
/// ```text
/// requires last { IsRunIn R.Bound.whole (R.pair last) }
/// requires run { IsRunIn R.Bound.whole (R.pair run) }
/// ensures { IsTrue result ↔ (((R.pair last).1 +ℤ pos 2) ≤ℤ (R.pair run).0) }
/// ```
///
/// Words: [`IsRunIn`](crate::definitions#IsRunIn).
#[cfg_attr(debug_assertions, track_caller)]
pub fn leaves_free<R: Pair>(last: R, run: R) -> bool {
    debug_assert!({ #[allow(unused_imports)] use crate::proved::ivl_interval::ops::*; is_run_list(&[last]) && is_run_list(&[run]) }, "{}", "the condition of `leaves_free` is broken: is_run_list(&[last]) && is_run_list(&[run])");
    let (end, start) = (last.upper(), run.lower());
    end.add_in_range(one_if(end < start)) < start
}
