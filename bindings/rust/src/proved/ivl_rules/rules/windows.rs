// Written by bindings/rust/extract from crates/ivl_rules/src/rules/windows.rt.
//! What is left of one domain; `None` stands for a domain that loses no member.

#[allow(unused_imports)]
use crate::rattle::prelude::*;
use crate::proved::intervallum::interval::Interval;
use crate::proved::intervallum::interval_set::IntervalSet;
use crate::proved::intervallum::ops::{
    Bounded, Cardinality, Contains, Difference, Empty, Intersection, IsEmpty, IsSingleton, Range,
    Singleton,
};
use crate::proved::intervallum::sweep::coalesce;
use crate::proved::intervallum::width::Width;
use crate::proved::ivl_store::store::Spares;
use crate::rattle::std::alloc::AllocError;

/// How many runs that are left are put into a spare set, at most: more of them are copied, in memory reserved at once.
const RUNS: usize = 64;

/// The number of a shift.
pub(super) fn shift_of(by: &i64) -> i128 {
    *by as i128
}

/// The number of a shift the other way.
pub(super) fn shift_back_of(by: &i64) -> i128 {
    -(*by as i128)
}

/// The number of the range that lies nearest to a number.
fn clamped<B: Width>(number: i128) -> B {
    match B::from_number(number) {
        Some(value) => value,
        None => {
            if number < B::min_value().number() {
                B::min_value()
            } else {
                B::max_value()
            }
        }
    }
}

/// The interval of the numbers of the range that are at least `a` and `by`.
pub(super) fn at_least<B: Width>(a: B, by: i128) -> Interval<B> {
    let greatest = B::max_value();
    let low = a.number() + by;
    if greatest.number() < low {
        return Interval::empty();
    }
    Interval::new(clamped(low), greatest)
}

/// The interval of the numbers of the range that with `by` are at most `a`.
pub(super) fn at_most<B: Width>(a: B, by: i128) -> Interval<B> {
    let least = B::min_value();
    let high = a.number() - by;
    if high < least.number() {
        return Interval::empty();
    }
    Interval::new(least, clamped(high))
}

/// The interval moved by a number, as far as it stays in the range.
fn moved_run<B: Width>(run: Interval<B>, by: i128) -> Interval<B> {
    let low = run.lower_bound().number() + by;
    let high = run.upper_bound().number() + by;
    if B::max_value().number() < low || high < B::min_value().number() {
        return Interval::empty();
    }
    Interval::new(clamped(low), clamped(high))
}

/// Returns the members of `x` in an interval, or `None` if all are. Costs a look at the ends of `x` and, where some are
/// lost, a binary search and a copy of what is left.
///
/// # Errors
///
/// Fails only if allocation fails.
///
/// ```
/// use intervallum::proved::examples::*;
///
/// fn main() -> Result<(), std::boxed::Box<dyn std::error::Error>> {
///     let alloc = Global;
///     let x = IntervalSet::new(alloc, 0, 9)?;
///     assert!(narrowed_to_window(&x, Interval::new(5, 20))? == Some(IntervalSet::new(alloc, 5, 9)?));
///     assert!(narrowed_to_window(&x, Interval::new(-5, 20))?.is_none());
///     Ok(())
/// }
/// ```
///
/// # Proved
///
/// On success, the members of `x` in the window; `None` exactly when all are.
///
/// ```text
/// ensures { IfOk result (IsLeftOf B.whole x.now (IsBetween window)) }
/// ```
///
/// Words: [`IsLeftOf`](crate::definitions#IsLeftOf), [`IsBetween`](crate::definitions#IsBetween).
pub fn narrowed_to_window<B: Width>(
    x: &IntervalSet<B>,
    window: Interval<B>,
) -> Result<Option<IntervalSet<B>>, AllocError> {
    x.in_whole();
    if lies_in(x, window) {
        return Ok(None);
    }
    Ok(Some(x.intersection(&window)?))
}

/// Returns what [`narrowed_to_window`] returns, at the same cost. What is left, if it has at most 64 runs, is made in the
/// memory of a spare set, as long as there is one.
///
/// # Errors
///
/// Fails only if allocation fails.
///
/// ```
/// use intervallum::proved::examples::*;
///
/// fn main() -> Result<(), std::boxed::Box<dyn std::error::Error>> {
///     let alloc = Global;
///     let mut spares = Spares::new(alloc);
///     spares.make_room()?;
///     spares.keep(IntervalSet::new(alloc, 1, 1)?);
///     let x: IntervalSet<i32> = [(0, 3), (7, 9)].to_interval_set(alloc)?;
///     let left = narrowed_to_window_in(&x, Interval::new(2, 8), &mut spares)?;
///     assert!(left == Some([(2, 3), (7, 8)].to_interval_set(alloc)?));
///     assert!(narrowed_to_window_in(&x, Interval::new(0, 9), &mut spares)?.is_none());
///     Ok(())
/// }
/// ```
///
/// # Proved
///
/// On success, the members of `x` in the window; `None` exactly when all are.
///
/// ```text
/// ensures { IfOk result (IsLeftOf B.whole x.now (IsBetween window)) }
/// ```
///
/// Words: [`IsLeftOf`](crate::definitions#IsLeftOf), [`IsBetween`](crate::definitions#IsBetween).
pub fn narrowed_to_window_in<B: Width>(
    x: &IntervalSet<B>,
    window: Interval<B>,
    spares: &mut Spares<B>,
) -> Result<Option<IntervalSet<B>>, AllocError> {
    x.in_whole();
    if lies_in(x, window) {
        return Ok(None);
    }
    let met = x.runs_within(&window);
    if met.len() > RUNS {
        return Ok(Some(x.intersection(&window)?));
    }
    let empty = spares.take(x.allocator());
    Ok(Some(set_of_clipped(empty, met, window)?))
}

/// Whether each member of `x` lies in an interval: a look at the ends of `x`.
#[inline(always)]
fn lies_in<B: Width>(x: &IntervalSet<B>, window: Interval<B>) -> bool {
    x.is_empty() || (window.contains(&x.lower()) && window.contains(&x.upper()))
}

/// The set of what runs have in an interval that each of them meets, in the memory of an empty set.
fn set_of_clipped<B: Width>(
    empty: IntervalSet<B>,
    runs: &[Interval<B>],
    window: Interval<B>,
) -> Result<IntervalSet<B>, AllocError> {
    let mut set = empty;
    for run in runs {
        set.push_run(run.intersection(&window))?;
    }
    set.in_whole();
    Ok(set)
}

/// Returns the members of `x` but one number, or `None` if that is no member. Allocates only where
/// it is one.
pub(super) fn narrowed_without<B: Width>(
    x: &IntervalSet<B>,
    number: i128,
) -> Result<Option<IntervalSet<B>>, AllocError> {
    x.in_whole();
    let Some(value) = B::from_number(number) else {
        return Ok(None);
    };
    if !x.contains(&value) {
        return Ok(None);
    }
    if x.is_singleton() {
        return Ok(Some(IntervalSet::empty(x.allocator())));
    }
    let single = Interval::singleton(value);
    Ok(Some(x.difference(&single)?))
}

/// Whether a number is a member of `x`.
#[inline(always)]
pub(super) fn has_number<B: Width>(x: &IntervalSet<B>, number: i128) -> bool {
    x.in_whole();
    match B::from_number(number) {
        Some(value) => x.contains(&value),
        None => false,
    }
}

/// Returns the empty set, or `None` if `x` is empty. Does not allocate.
pub(super) fn narrowed_to_none<B: Width>(x: &IntervalSet<B>) -> Option<IntervalSet<B>> {
    x.in_whole();
    if x.is_empty() {
        return None;
    }
    Some(IntervalSet::empty(x.allocator()))
}

/// Returns the members of `x` that are a member of `y` and a number, or `None` if all are. Does not
/// allocate where each run of `x` lies within one of `y`, moved so far.
pub(super) fn narrowed_to_moved<B: Width>(
    x: &IntervalSet<B>,
    y: &IntervalSet<B>,
    by: i128,
) -> Result<Option<IntervalSet<B>>, AllocError> {
    x.in_whole();
    if lies_within_moved(x, y, by) {
        return Ok(None);
    }
    let moved = moved_set(y, by)?;
    let left = x.intersection(&moved)?;
    // a subset, so the sizes decide
    Ok(if left.size() != x.size() {
        Some(left)
    } else {
        None
    })
}

/// Whether each member of `x` is one of `y` and a number.
fn lies_within_moved<B: Width>(x: &IntervalSet<B>, y: &IntervalSet<B>, by: i128) -> bool {
    let runs = x.iter().as_slice();
    for run in runs {
        if !has_moved_run(y, *run, by) {
            return false;
        }
    }
    true
}

/// Whether each number of an interval is one of `y` and a number.
fn has_moved_run<B: Width>(y: &IntervalSet<B>, run: Interval<B>, by: i128) -> bool {
    let low = run.lower_bound().number() - by;
    let high = run.upper_bound().number() - by;
    if low < B::min_value().number() || B::max_value().number() < high {
        return false;
    }
    y.includes(&Interval::new(clamped(low), clamped(high)))
}

/// The numbers of the range that are a member of `y` and a number.
fn moved_set<B: Width>(y: &IntervalSet<B>, by: i128) -> Result<IntervalSet<B>, AllocError> {
    let runs = y.iter().as_slice();
    let mut moved = Vec::with_capacity(y.allocator(), runs.len())?;
    for run in runs {
        moved.push(moved_run(*run, by))?;
    }
    coalesce(y.allocator(), moved)
}
