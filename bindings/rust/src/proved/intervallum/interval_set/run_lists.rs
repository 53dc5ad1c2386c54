// Written by bindings/rust/extract from crates/intervallum/src/interval_set/run_lists.rt.
//! What is asked of lists of intervals: whether they are run lists, whether two are the same, how many numbers they cover.

#[allow(unused_imports)]
use crate::rattle::prelude::*;
use super::builder::grown;
use crate::proved::intervallum::interval::Interval;
use crate::proved::intervallum::ops::{Bounded, Cardinality, Empty, IsEmpty, Range};
use crate::proved::intervallum::width::{SizeNumber, Width};
use crate::proved::ivl_merges::merges::joins;

/// How many runs of two lists are compared by one branch.
const GROUP: usize = 4;

/// Two lists have the same runs in the same places.
pub(super) fn are_the_same<B: Width>(a: &[Interval<B>], b: &[Interval<B>]) -> bool {
    if a.len() != b.len() {
        return false;
    }
    let groups = a.len() / GROUP;
    for i in 0..groups {
        let from = i * GROUP;
        if !all_are_the_same(&a[from..from + GROUP], &b[from..from + GROUP]) {
            return false;
        }
    }
    let rest = groups * GROUP;
    all_are_the_same(&a[rest..], &b[rest..])
}

/// Two lists of the same length have the same runs in the same places, by one branch for all.
fn all_are_the_same<B: Width>(a: &[Interval<B>], b: &[Interval<B>]) -> bool {
    // a compiler that sees the same length twice need not test each index
    let others = &b[..a.len()];
    let mut are_same = true;
    for i in 0..a.len() {
        are_same = are_same & is_same(a[i], others[i]);
    }
    are_same
}

/// Two intervals that are not empty have the same bounds.
fn is_same<B: Width>(run: Interval<B>, other: Interval<B>) -> bool {
    // by one branch for both
    let lower_is_same = run.lower() == other.lower();
    let upper_is_same = run.upper() == other.upper();
    lower_is_same & upper_is_same
}

/// The intervals are a list of runs: none is empty, they ascend, and a number is missing between
/// neighbours.
pub(crate) fn are_runs<B: Width>(list: &[Interval<B>]) -> bool {
    let Some((first, rest)) = list.split_first() else {
        return true;
    };
    if first.is_empty() {
        return false;
    }
    first.in_whole();
    let mut last = *first;
    for run in rest {
        run.in_whole();
        last.in_whole();
        if run.is_empty() || joins(last, *run) {
            return false;
        }
        last = *run;
    }
    true
}

/// Runs are in the range, as each interval is. This does nothing: its contract is the fact.
pub(super) fn are_in_whole<B: Width>(runs: &[Interval<B>]) {
    if !runs.is_empty() {
        runs[0].in_whole();
        runs[runs.len() - 1].in_whole();
    }
}

/// The least interval that holds the numbers of runs, empty if there is none.
pub(crate) fn hull_of_runs<B: Width>(runs: &[Interval<B>]) -> Interval<B> {
    let count = runs.len();
    if count == 0 {
        return Interval::empty();
    }
    Interval::new(runs[0].lower(), runs[count - 1].upper())
}

/// How many numbers runs cover.
pub(crate) fn size_of_runs<B: Width>(runs: &[Interval<B>]) -> B::Output {
    let mut size = <B::Output as SizeNumber>::zero();
    for run in runs {
        size = grown::<B>(size, run.size());
    }
    size
}
