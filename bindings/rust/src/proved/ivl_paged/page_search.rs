// Written by bindings/rust/extract from crates/ivl_paged/src/page_search.rt.
//! The search among the runs of a page.
//!
//! A binary search waits for each run that it looks at before it knows the next one. Here the runs that
//! are looked at do not depend on what was seen, so that they come from memory side by side: those at
//! each 16th place, and then 16 that stand in a row.

#[allow(unused_imports)]
use crate::rattle::prelude::*;
use crate::proved::intervallum::interval::Interval;
use crate::proved::intervallum::ops::Contains;
use crate::proved::intervallum::width::Width;
use crate::rattle::std::hint::select_unpredictable;

/// How many runs in a row are looked at, and how far apart those are that are looked at before.
const STEP: usize = 16;

/// How many runs start at a value or below, and the run that has it, if one has it.
pub(crate) fn find_run<B: Width>(runs: &[Interval<B>], value: B) -> (usize, Option<Interval<B>>) {
    let place = starts_up_to(runs, value);
    (place, run_before(runs, place, value))
}

/// How many runs start at a value or below.
fn starts_up_to<B: Width>(runs: &[Interval<B>], value: B) -> usize {
    if runs.len() < STEP {
        return count_up_to(runs, value);
    }
    let first = row_up_to(runs, value);
    first + count_up_to(&runs[first..first + STEP], value)
}

/// How many runs start at a value or below, by a look at each.
fn count_up_to<B: Width>(runs: &[Interval<B>], value: B) -> usize {
    let mut count = 0;
    for i in 0..runs.len() {
        let is_up_to = runs[i].lower_bound() <= value;
        count = select_unpredictable(is_up_to, i + 1, count);
    }
    count
}

/// The first place of 16 runs in a row: those before it start at a value or below, and those behind them
/// above it.
fn row_up_to<B: Width>(runs: &[Interval<B>], value: B) -> usize {
    let last = runs.len() - STEP;
    let mut first = 0;
    let mut next = 0;
    'rows: while next < last {
        next = (next + STEP).min(last);
        let is_up_to = runs[next].lower_bound() <= value;
        first = select_unpredictable(is_up_to, next, first);
    }
    first
}

/// The run before a place, if it has a value.
pub(crate) fn run_before<B: Width>(
    runs: &[Interval<B>],
    place: usize,
    value: B,
) -> Option<Interval<B>> {
    if place == 0 {
        return None;
    }
    if runs.len() < place {
        return None;
    }
    let run = runs[place - 1];
    if run.contains(&value) {
        Some(run)
    } else {
        None
    }
}
