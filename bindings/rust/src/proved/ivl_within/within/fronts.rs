// Written by bindings/rust/extract from crates/ivl_within/src/within/fronts.rt.
//! The results in a run, found in order: no list of pairs and no sort.

#[allow(unused_imports)]
use crate::rattle::prelude::*;
use super::Combined;
use crate::proved::intervallum::interval::Interval;
use crate::proved::intervallum::interval_set::IntervalSet;
use crate::proved::intervallum::ops::{Bounded, Range};
use crate::proved::intervallum::sweep::coalesce;
use crate::proved::intervallum::width::Width;
use crate::rattle::std::alloc::AllocError;

/// The results that begin up to a number: whether one of them reaches it, how far they reach then, and
/// where the next ones begin, the number itself or less if there are none.
#[derive(Clone, Copy)]
struct Front<B: Width> {
    is_met: bool,
    reach: B,
    next: B,
}

/// The members of `x` that are results, or `None` if all are.
///
/// # Proved
///
/// ```text
/// requires fits { IsSubset (SumsBy op (Covers a.now) (Covers b.now)) (IsBetween B.whole) }
/// ensures { IfOk result (λ o. MatchOption o (IsSubset (Covers x.now) (SumsBy op (Covers a.now) (Covers b.now)))
///     (λ L. IsRunsOf L (Intersection (Covers x.now) (SumsBy op (Covers a.now) (Covers b.now))))) }
/// ```
///
/// Words: [`IsSubset`](crate::definitions#IsSubset), [`SumsBy`](crate::definitions#SumsBy), [`Covers`](crate::definitions#Covers), [`IsBetween`](crate::definitions#IsBetween), [`IsRunsOf`](crate::definitions#IsRunsOf), [`Intersection`](crate::definitions#Intersection).
pub fn results_by_fronts<B: Width>(
    x: &IntervalSet<B>,
    a: &IntervalSet<B>,
    b: &IntervalSet<B>,
    op: Combined,
) -> Result<Option<IntervalSet<B>>, AllocError> {
    let runs = x.iter().as_slice();
    let left = a.iter().as_slice();
    let right = b.iter().as_slice();
    let kept = count_kept(runs, left, right, op);
    if kept == runs.len() {
        return Ok(None);
    }
    let mut entries = Vec::with_capacity(x.allocator(), runs.len())?;
    entries.extend_from_slice(&runs[..kept])?;
    push_all(&mut entries, &runs[kept..], left, right, op)?;
    Ok(Some(coalesce(x.allocator(), entries)?))
}

/// How many runs of a list stand before the first one with a number that is no result.
fn count_kept<B: Width>(
    runs: &[Interval<B>],
    a: &[Interval<B>],
    b: &[Interval<B>],
    op: Combined,
) -> usize {
    let mut count = 0;
    'runs: while count < runs.len() {
        let run = runs[count];
        let front = stretch(a, b, op, run.lower(), run.upper());
        if !front.is_met || front.reach < run.upper() {
            return count;
        }
        count += 1;
    }
    count
}

/// Adds the results in each run of a list.
fn push_all<B: Width>(
    entries: &mut Vec<Interval<B>>,
    runs: &[Interval<B>],
    a: &[Interval<B>],
    b: &[Interval<B>],
    op: Combined,
) -> Result<(), AllocError> {
    for run in runs {
        push_results(entries, *run, a, b, op)?;
    }
    Ok(())
}

/// Adds the results in a run, in order.
fn push_results<B: Width>(
    entries: &mut Vec<Interval<B>>,
    run: Interval<B>,
    a: &[Interval<B>],
    b: &[Interval<B>],
    op: Combined,
) -> Result<(), AllocError> {
    let (mut from, to) = (run.lower(), run.upper());
    'fronts: while from <= to {
        let front = stretch(a, b, op, from, to);
        push_stretch(entries, from, to, front)?;
        if front.next <= from {
            return Ok(());
        }
        from = front.next;
    }
    Ok(())
}

/// Adds the results from a number on that have no gap, up to an end, if there are any.
fn push_stretch<B: Width>(
    entries: &mut Vec<Interval<B>>,
    from: B,
    to: B,
    front: Front<B>,
) -> Result<(), AllocError> {
    if !front.is_met {
        return Ok(());
    }
    entries.push(Interval::new(from, front.reach.min(to)))?;
    Ok(())
}

/// The front at a number, carried on to the first gap or to an end. There the next results count as
/// none.
fn stretch<B: Width>(a: &[Interval<B>], b: &[Interval<B>], op: Combined, from: B, to: B) -> Front<B> {
    let mut front = front_at(a, b, op, from, to);
    'fronts: while front.is_met && front.reach < to {
        let further = front_at(a, b, op, front.reach.add_in_range(B::one()), to);
        if !further.is_met {
            front.next = further.next;
            return front;
        }
        front.reach = further.reach;
    }
    if front.is_met {
        front.next = from;
    }
    front
}

/// The front at a number. Each row ascends, so that the last of its results that begins up to the number
/// reaches furthest; and rows ascend, so that these results go back from row to row.
fn front_at<B: Width>(
    a: &[Interval<B>],
    b: &[Interval<B>],
    op: Combined,
    from: B,
    to: B,
) -> Front<B> {
    let mut front = Front {
        is_met: false,
        reach: from,
        next: B::max_value(),
    };
    let mut count = b.len();
    for run in a {
        count = begun(*run, b, op, count, from);
        front.next = next_of(*run, b, op, count, front.next);
        if count == 0 {
            return front;
        }
        let end = result_at(*run, b, op, count - 1).upper_bound();
        if from <= end {
            front.is_met = true;
            front.reach = front.reach.max(end);
            if to <= end {
                return front;
            }
        }
    }
    front
}

/// How many of the first results of a row begin up to a number, if those from a count on do not.
fn begun<B: Width>(
    run: Interval<B>,
    b: &[Interval<B>],
    op: Combined,
    count: usize,
    from: B,
) -> usize {
    let mut left = count;
    'places: while 0 < left && from < result_at(run, b, op, left - 1).lower_bound() {
        left -= 1;
    }
    left
}

/// The lesser of a number and where the result at a place begins; the number if there is no such place.
fn next_of<B: Width>(run: Interval<B>, b: &[Interval<B>], op: Combined, place: usize, next: B) -> B {
    if b.len() <= place {
        return next;
    }
    next.min(result_at(run, b, op, place).lower_bound())
}

/// The results of a run and the one of a list whose results come at a place, where these ascend.
///
/// # Proved
///
/// ```text
/// requires filled { run.0 ≤ℤ run.1 }
/// requires right { IsMaximal b.now }
/// requires fits { IsSubset (SumsBy op (IsBetween run) (Covers b.now)) (IsBetween B.whole) }
/// requires place { place < length b.now }
/// ensures { result ≡ pair_by op run (nth_by op b.now place) }
/// ```
///
/// Words: [`IsMaximal`](crate::definitions#IsMaximal), [`IsSubset`](crate::definitions#IsSubset), [`SumsBy`](crate::definitions#SumsBy), [`IsBetween`](crate::definitions#IsBetween), [`Covers`](crate::definitions#Covers), [`pair_by`](crate::definitions#pair_by), [`nth_by`](crate::definitions#nth_by).
pub fn result_at<B: Width>(
    run: Interval<B>,
    b: &[Interval<B>],
    op: Combined,
    place: usize,
) -> Interval<B> {
    match op {
        Combined::Sum => {
            let other = b[place];
            Interval::new(
                run.lower_bound().add_in_range(other.lower_bound()),
                run.upper_bound().add_in_range(other.upper_bound()),
            )
        }
        Combined::Difference => {
            let other = b[b.len() - 1 - place];
            Interval::new(
                run.lower_bound().sub_in_range(other.upper_bound()),
                run.upper_bound().sub_in_range(other.lower_bound()),
            )
        }
    }
}
