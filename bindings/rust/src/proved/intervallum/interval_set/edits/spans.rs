// Written by bindings/rust/extract from crates/intervallum/src/interval_set/edits/spans.rt.
//! Which runs of a set an edit changes.

#[allow(unused_imports)]
use crate::rattle::prelude::*;
use crate::proved::intervallum::interval::Interval;
use crate::proved::intervallum::interval_set::IntervalSet;
use crate::proved::intervallum::ops::{Bounded, IsEmpty, Range, StrictShrinkLeft, StrictShrinkRight};
use crate::proved::intervallum::steps::{Place, Probes, find, find_from, last_up_to};
use crate::proved::intervallum::width::Width;

/// The places of the runs that end at `lower` or above and start at `upper` or below: the first,
/// and the one after the last. The search for the second starts at the first, and there is none if
/// both numbers are in one run.
pub(super) fn span<B: Width>(
    set: &IntervalSet<B>,
    place: Option<usize>,
    lower: B,
    upper: B,
) -> (usize, usize) {
    set.in_whole();
    let mut probes = Probes::new(set);
    match find_near(&mut probes, lower, place) {
        Place::In(i) => (i, last_from_run(&mut probes, upper, i)),
        Place::Gap(i) => (i, last_up_to(&mut probes, upper, i)),
    }
}

/// The place of a value. Searches from a place on, if one is given and the runs before it end below
/// the value, and else all runs.
fn find_near<B: Width>(probes: &mut Probes<'_, B>, value: B, place: Option<usize>) -> Place {
    match place {
        Some(place) => find_beside(probes, value, place),
        None => find(probes, value),
    }
}

/// The place of a value. Searches from a place on, if the runs before it end below the value, and else
/// all runs.
fn find_beside<B: Width>(probes: &mut Probes<'_, B>, value: B, place: usize) -> Place {
    if ends_before(probes, place, value) {
        find_from(probes, value, place)
    } else {
        find(probes, value)
    }
}

/// Whether there are runs up to a place, and those before it end below a value.
fn ends_before<B: Width>(probes: &mut Probes<'_, B>, place: usize, value: B) -> bool {
    let count = probes.len();
    place == 0 || (place <= count && probes.look(place - 1).upper() < value)
}

/// How many runs start at a value or below, as run `i` does, where those before it end below.
fn last_from_run<B: Width>(probes: &mut Probes<'_, B>, value: B, i: usize) -> usize {
    probes.in_whole();
    let run = probes.look(i);
    if value <= run.upper() {
        i + 1
    } else {
        last_up_to(probes, value, i)
    }
}

/// The places of the runs that overlap or touch an interval: the first, and the one after the last.
pub(super) fn touched<B: Width>(
    set: &IntervalSet<B>,
    place: Option<usize>,
    interval: &Interval<B>,
) -> (usize, usize) {
    set.in_whole();
    let below = one_below(interval.lower());
    let above = one_above(interval.upper());
    span(set, place, below, above)
}

/// The number before, or the number itself if it is the least of the range.
fn one_below<B: Width>(value: B) -> B {
    match value.checked_sub(B::one()) {
        Some(below) => below,
        None => value,
    }
}

/// The number after, or the number itself if it is the greatest of the range.
fn one_above<B: Width>(value: B) -> B {
    match value.checked_add(B::one()) {
        Some(above) => above,
        None => value,
    }
}

/// The run that an interval makes together with those from `start` to before `end`, which are the
/// runs that it overlaps or touches.
pub(super) fn joined<B: Width>(
    runs: &[Interval<B>],
    start: usize,
    end: usize,
    interval: Interval<B>,
) -> Interval<B> {
    if start == end {
        return interval;
    }
    let lower = interval.lower().min(runs[start].lower());
    let upper = interval.upper().max(runs[end - 1].upper());
    Interval::new(lower, upper)
}

/// What is left below and above an interval of the runs from `start` to before `end`, which are
/// those that it overlaps.
pub(super) fn rests<B: Width>(
    runs: &[Interval<B>],
    start: usize,
    end: usize,
    interval: Interval<B>,
) -> (Option<Interval<B>>, Option<Interval<B>>) {
    let below = runs[start].strict_shrink_right(interval.lower());
    let above = runs[end - 1].strict_shrink_left(interval.upper());
    (if_filled(below), if_filled(above))
}

/// The interval, if it has a member.
pub(super) fn if_filled<B: Width>(part: Interval<B>) -> Option<Interval<B>> {
    if part.is_empty() { None } else { Some(part) }
}
