// Written by bindings/rust/extract from crates/ivl_within/src/within/by_runs.rt.
//! The results in a set, made for each of its runs alone.

#[allow(unused_imports)]
use crate::rattle::prelude::*;
use super::Combined;
use super::rows::{push_rows, reach, reach_back};
use crate::proved::intervallum::interval::Interval;
use crate::proved::intervallum::interval_set::IntervalSet;
use crate::proved::intervallum::ops::IsEmpty;
use crate::proved::intervallum::sweep::coalesce;
use crate::proved::intervallum::width::Width;
use crate::rattle::std::alloc::AllocError;

/// Returns the members of `x` that are made of one of `a` and one of `b`, found for each run of `x`
/// alone, or `None` where making all results in the hull of `x` is cheaper.
///
/// A run of `x` that one pair makes whole is done at that pair, so it takes few runs of `a` even if
/// very many pairs reach it. Gives up where this takes twice as many runs in all as there are pairs,
/// each of which costs more.
///
/// # Proved
///
/// ```text
/// ensures { IfOk result (λ o. IfSome o (λ L. IsRunsOf L (Intersection (Covers x.now) (SumsBy op (Covers a.now) (Covers b.now))))) }
/// ```
///
/// Words: [`IsRunsOf`](crate::definitions#IsRunsOf), [`Intersection`](crate::definitions#Intersection), [`Covers`](crate::definitions#Covers), [`SumsBy`](crate::definitions#SumsBy).
pub fn results_by_runs<B: Width>(
    x: &IntervalSet<B>,
    a: &IntervalSet<B>,
    b: &IntervalSet<B>,
    op: Combined,
) -> Result<Option<IntervalSet<B>>, AllocError> {
    a.in_whole();
    b.in_whole();
    let hull = b.hull();
    if hull.is_empty() || !may_be_many_pairs(x, a, b) {
        return Ok(None);
    }
    let limit = pairs_in_window(a, b, op, x.hull()).saturating_mul(2);
    let mut entries = Vec::with_capacity(x.allocator(), x.interval_count())?;
    let mut taken: usize = 0;
    for run in x.iter().as_slice() {
        let left = a.runs_within(&reach_back(hull, op, *run));
        taken = taken.saturating_add(push_rows(&mut entries, left, b, op, *run)?);
        if taken > limit {
            return Ok(None);
        }
    }
    Ok(Some(coalesce(x.allocator(), entries)?))
}

/// Whether there are many more pairs of runs than runs; else to make all pairs costs little.
fn may_be_many_pairs<B: Width>(x: &IntervalSet<B>, a: &IntervalSet<B>, b: &IntervalSet<B>) -> bool {
    let (left, right) = (a.interval_count(), b.interval_count());
    let runs = x
        .interval_count()
        .saturating_add(left)
        .saturating_add(right);
    left.saturating_mul(right) / 8 > runs
}

/// How many pairs of runs reach a window.
fn pairs_in_window<B: Width>(
    a: &IntervalSet<B>,
    b: &IntervalSet<B>,
    op: Combined,
    window: Interval<B>,
) -> usize {
    if window.is_empty() {
        return 0;
    }
    let mut count: usize = 0;
    for run in a.iter().as_slice() {
        count = count.saturating_add(b.runs_within(&reach(*run, op, window)).len());
    }
    count
}
