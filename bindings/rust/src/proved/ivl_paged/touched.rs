// Written by bindings/rust/extract from crates/ivl_paged/src/touched.rt.
//! What an interval touches in a page: the runs that have a number of it, or one beside it.

#[allow(unused_imports)]
use crate::rattle::prelude::*;
use crate::proved::ivl_paged::page::Page;
use crate::proved::intervallum::interval::Interval;
use crate::proved::intervallum::ops::{Bounded, Range};
use crate::proved::intervallum::width::Width;

/// The number after, or the number itself if it is the greatest of the range.
pub(crate) fn one_above<B: Width>(value: B) -> B {
    match value.checked_add(B::one()) {
        Some(above) => above,
        None => value,
    }
}

/// The number before, or the number itself if it is the least of the range.
pub(crate) fn one_below<B: Width>(value: B) -> B {
    match value.checked_sub(B::one()) {
        Some(below) => below,
        None => value,
    }
}

/// Whether an interval overlaps or touches a run of a page.
pub(crate) fn touches<B: Width>(page: &Page<B>, interval: &Interval<B>) -> bool {
    page.set().in_whole();
    interval.in_whole();
    let upper = one_above(interval.upper());
    match page.set().next_from(one_below(interval.lower())) {
        Some(next) => next <= upper,
        None => false,
    }
}

/// The interval, up to the end of the run that has its last number or the one after, if there is one.
pub(crate) fn with_run_above<B: Width>(page: &Page<B>, interval: &Interval<B>) -> Interval<B> {
    page.set().in_whole();
    interval.in_whole();
    match page.run_at(one_above(interval.upper())) {
        Some(run) => Interval::new(interval.lower(), run.upper_bound()),
        None => *interval,
    }
}

/// Whether an interval would be a run more in a page, where there are as many runs as a `usize` counts.
pub(crate) fn is_more_uncounted<B: Width>(
    count: usize,
    page: &Page<B>,
    interval: &Interval<B>,
) -> bool {
    count == usize::MAX && !touches(page, interval)
}
