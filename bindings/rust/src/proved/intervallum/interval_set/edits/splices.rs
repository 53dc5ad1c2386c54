// Written by bindings/rust/extract from crates/intervallum/src/interval_set/edits/splices.rt.
//! Runs put in the place of others, in a vector of runs.

#[allow(unused_imports)]
use crate::rattle::prelude::*;
use crate::proved::intervallum::interval::Interval;
use crate::proved::intervallum::ops::Cardinality;
use crate::proved::intervallum::width::{SizeNumber, Width};
use crate::rattle::std::alloc::AllocError;

/// How many numbers runs have together.
pub(super) fn total_size<B: Width>(runs: &[Interval<B>]) -> B::Output {
    let mut total = <B::Output as SizeNumber>::zero();
    for run in runs {
        total = total.checked_add(run.size()).unwrap();
    }
    total
}

/// Puts at most two runs in the place of those from `start` to before `end`. Fails only if it puts
/// more runs than it removes, and allocation fails; the runs are then unchanged.
pub(super) fn replace_runs<B: Width>(
    runs: &mut Vec<Interval<B>>,
    start: usize,
    end: usize,
    first: Option<Interval<B>>,
    second: Option<Interval<B>>,
) -> Result<(), AllocError> {
    match (first, second) {
        (None, None) => {
            take_out(runs, start, end);
            Ok(())
        }
        (Some(run), None) | (None, Some(run)) => put_one(runs, start, end, run),
        (Some(left), Some(right)) => {
            put_one(runs, start + 1, end, right)?;
            runs[start] = left;
            Ok(())
        }
    }
}

/// Puts one run in the place of those from `start` to before `end`.
fn put_one<B: Width>(
    runs: &mut Vec<Interval<B>>,
    start: usize,
    end: usize,
    run: Interval<B>,
) -> Result<(), AllocError> {
    if start == end {
        runs.insert(start, run)?;
    } else {
        runs[start] = run;
        take_out(runs, start + 1, end);
    }
    Ok(())
}

/// Takes out the runs from `start` to before `end`.
fn take_out<B: Width>(runs: &mut Vec<Interval<B>>, start: usize, end: usize) {
    let count = end - start;
    if count == 1 {
        runs.remove(start);
    } else if count > 1 {
        drop(runs.drain(start..end));
    }
}

/// How many numbers a run has; 0 if there is no run.
pub(super) fn size_of<B: Width>(run: Option<Interval<B>>) -> B::Output {
    match run {
        Some(run) => run.size(),
        None => <B::Output as SizeNumber>::zero(),
    }
}

/// A size less some. The difference is a size again.
pub(super) fn shrunk<B: Width>(size: B::Output, less: B::Output) -> B::Output {
    size.checked_sub(less).unwrap()
}
