// Written by bindings/rust/extract from crates/ivl_within/src/within/moved.rt.
//! The results in a set where one operand is a single number: the runs of the other one, moved or turned.

#[allow(unused_imports)]
use crate::rattle::prelude::*;
use super::Combined;
use super::fronts::result_at;
use crate::proved::intervallum::interval::Interval;
use crate::proved::intervallum::interval_set::IntervalSet;
use crate::proved::intervallum::ops::{Intersection, IsEmpty, Subset};
use crate::proved::intervallum::sweep::coalesce;
use crate::proved::intervallum::width::Width;
use crate::rattle::std::alloc::AllocError;

/// The members of `x` that are results, or `None` if it finds that all are, where one of two sets is one run, best a
/// single number: then the results are as many runs as the other one has, apart from each other.
///
/// # Proved
///
/// ```text
/// requires one { HasOneRun a.now b.now }
/// requires fits { IsSubset (SumsBy op (Covers a.now) (Covers b.now)) (IsBetween B.whole) }
/// ensures { IfOk result (λ o. MatchOption o (IsSubset (Covers x.now) (SumsBy op (Covers a.now) (Covers b.now)))
///     (λ L. IsRunsOf L (Intersection (Covers x.now) (SumsBy op (Covers a.now) (Covers b.now))))) }
/// ```
///
/// Words: [`HasOneRun`](crate::definitions#HasOneRun), [`IsSubset`](crate::definitions#IsSubset), [`SumsBy`](crate::definitions#SumsBy), [`Covers`](crate::definitions#Covers), [`IsBetween`](crate::definitions#IsBetween), [`IsRunsOf`](crate::definitions#IsRunsOf), [`Intersection`](crate::definitions#Intersection).
pub fn results_by_moving<B: Width>(
    x: &IntervalSet<B>,
    a: &IntervalSet<B>,
    b: &IntervalSet<B>,
    op: Combined,
) -> Result<Option<IntervalSet<B>>, AllocError> {
    let runs = x.iter().as_slice();
    let left = a.iter().as_slice();
    let right = b.iter().as_slice();
    let kept = count_within(runs, left, right, op);
    if kept == runs.len() {
        return Ok(None);
    }
    let mut entries = Vec::with_capacity(x.allocator(), runs.len())?;
    entries.extend_from_slice(&runs[..kept])?;
    push_common(&mut entries, &runs[kept..], left, right, op)?;
    Ok(Some(coalesce(x.allocator(), entries)?))
}

/// How many runs of a list stand before the first one that is not within one run of the results.
fn count_within<B: Width>(
    runs: &[Interval<B>],
    a: &[Interval<B>],
    b: &[Interval<B>],
    op: Combined,
) -> usize {
    let count = count_images(a, b);
    let mut within = 0;
    let mut place = 0;
    'walk: while within < runs.len() && place < count {
        let run = runs[within];
        let image = image_at(a, b, op, place);
        if run.is_subset(&image) {
            within += 1;
        } else if image.upper_bound() < run.lower_bound() {
            place += 1;
        } else {
            return within;
        }
    }
    within
}

/// Adds what each run of a list and each run of the results have in common.
fn push_common<B: Width>(
    entries: &mut Vec<Interval<B>>,
    runs: &[Interval<B>],
    a: &[Interval<B>],
    b: &[Interval<B>],
    op: Combined,
) -> Result<(), AllocError> {
    let count = count_images(a, b);
    let mut next = 0;
    let mut place = 0;
    'walk: while next < runs.len() && place < count {
        let run = runs[next];
        let image = image_at(a, b, op, place);
        push_part(entries, run.intersection(&image))?;
        if image.upper_bound() <= run.upper_bound() {
            place += 1;
        } else {
            next += 1;
        }
    }
    Ok(())
}

/// Adds an interval unless it is empty.
fn push_part<B: Width>(entries: &mut Vec<Interval<B>>, part: Interval<B>) -> Result<(), AllocError> {
    if part.is_empty() {
        return Ok(());
    }
    entries.push(part)?;
    Ok(())
}

/// How many runs the results are made of.
fn count_images<B: Width>(a: &[Interval<B>], b: &[Interval<B>]) -> usize {
    if a.len() == 1 { b.len() } else { a.len() }
}

/// The run of the results at a place, where they ascend.
fn image_at<B: Width>(
    a: &[Interval<B>],
    b: &[Interval<B>],
    op: Combined,
    place: usize,
) -> Interval<B> {
    if a.len() == 1 {
        result_at(a[0], b, op, place)
    } else {
        result_at(a[place], b, op, 0)
    }
}
