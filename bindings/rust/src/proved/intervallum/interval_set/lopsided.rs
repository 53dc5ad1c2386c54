// Written by bindings/rust/extract from crates/intervallum/src/interval_set/lopsided.rt.
//! Operations on a set of few runs and one of many: searches for each of the few among the many,
//! from where the last search ended.

#[allow(unused_imports)]
use crate::rattle::prelude::*;
use super::IntervalSet;
use super::builder::grown;
use super::runs_within::size_of_part;
use crate::proved::intervallum::interval::Interval;
use crate::proved::intervallum::ops::{Bounded, Complement};
use crate::proved::intervallum::steps::{Probes, Walk, first_from, last_up_to, without};
use crate::proved::intervallum::width::{SizeNumber, Width};
use crate::rattle::std::alloc::AllocError;

/// How many times as many runs the other set must have for a search to take fewer steps.
const FAR_MORE: usize = 16;

/// The first set has so few runs, compared with the second, that a search for each of them takes
/// fewer steps than a walk over both.
pub(super) fn is_far_shorter<B: Width>(few: &IntervalSet<B>, many: &IntervalSet<B>) -> bool {
    few.interval_count() < many.interval_count() / FAR_MORE
}

/// The members that a set of few runs has in common with one of many. Reserves the few, and more as
/// the answer grows. Copies the runs of the many that are kept whole.
///
/// The searches see the runs of the many by the looks of `probes` alone.
pub(super) fn common_with_few<B: Width>(
    few: &IntervalSet<B>,
    many: &IntervalSet<B>,
    probes: &mut Probes<'_, B>,
) -> Result<IntervalSet<B>, AllocError> {
    let mut set = IntervalSet::with_room(few.allocator(), few.interval_count())?;
    let mut from = 0;
    for run in few.as_runs() {
        from = push_shared(&mut set, many, probes, *run, from)?;
    }
    Ok(set.fitted())
}

/// How many members a set of few runs has in common with one of many. Reads the runs of the many that
/// the few overlap. Does not allocate.
///
/// The searches see the runs of the many by the looks of `probes` alone.
pub(super) fn common_size_with_few<B: Width>(
    few: &IntervalSet<B>,
    many: &IntervalSet<B>,
    probes: &mut Probes<'_, B>,
) -> B::Output {
    let mut size = <B::Output as SizeNumber>::zero();
    let mut from = 0;
    for run in few.as_runs() {
        let (start, shared) = shared_runs(many, probes, run, from);
        size = grown::<B>(size, size_of_part(shared, run));
        from = start;
    }
    size
}

/// The members of a set of many runs that are not in one of few: what it has in common with the
/// complement of the few.
pub(super) fn without_few<B: Width>(
    many: &IntervalSet<B>,
    few: &IntervalSet<B>,
) -> Result<IntervalSet<B>, AllocError> {
    // members of the many are in the range, so in the complement of the few unless in them
    many.in_whole();
    let free = few.complement()?;
    common_with_few(&free, many, &mut Probes::new(many))
}

/// The members of a set of few runs that are not in one of many: those that are not among what the
/// two have in common.
pub(super) fn few_without<B: Width>(
    few: &IntervalSet<B>,
    many: &IntervalSet<B>,
) -> Result<IntervalSet<B>, AllocError> {
    let shared = common_with_few(few, many, &mut Probes::new(many))?;
    without(Walk::new(few), Walk::new(&shared))
}

/// Adds what a run has in common with a set of many runs, whose first `from` end below it. Returns
/// how many end below it.
fn push_shared<B: Width>(
    set: &mut IntervalSet<B>,
    many: &IntervalSet<B>,
    probes: &mut Probes<'_, B>,
    run: Interval<B>,
    from: usize,
) -> Result<usize, AllocError> {
    let (start, shared) = shared_runs(many, probes, &run, from);
    set.push_cut(shared, &run)?;
    Ok(start)
}

/// The runs of a set that a run overlaps, and how many end below it, as the first `from` do.
fn shared_runs<'a, B: Width>(
    many: &'a IntervalSet<B>,
    probes: &mut Probes<'_, B>,
    run: &Interval<B>,
    from: usize,
) -> (usize, &'a [Interval<B>]) {
    let runs = many.as_runs();
    let start = first_from(probes, run.lower(), from);
    let end = last_up_to(probes, run.upper(), start);
    (start, &runs[start..end])
}
