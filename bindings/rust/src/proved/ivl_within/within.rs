// Written by bindings/rust/extract from crates/ivl_within/src/within.rt.
//! Sums and differences of sets, cut to a window: the range of the bounds, or an interval.

#[allow(unused_imports)]
use crate::rattle::prelude::*;

mod by_runs;
mod fronts;
mod members;
mod moved;
mod pairs;
mod rows;

use crate::proved::intervallum::interval::Interval;
use crate::proved::intervallum::interval_set::IntervalSet;
use crate::proved::intervallum::ops::{Fits, IsEmpty, Whole};
use crate::proved::intervallum::sweep::coalesce;
use crate::proved::intervallum::width::Width;
pub use members::{results_in_set, results_unless_all};
pub use pairs::pair_in_window;
use rows::push_rows;
use crate::rattle::std::alloc::{AllocError, Global};

/// What is made of two numbers: their sum, or the first less the second.
#[derive(Clone, Copy)]
pub enum Combined {
    Sum,
    Difference,
}

/// Returns the sums of a member of each set that are in the range, and true exactly when some sum
/// is not. If either set is empty, returns the empty set and false.
///
/// `O(n m log (n m))` for `n` and `m` runs. Reserves `n * m` runs for the pairs, and then as many
/// for the answer unless the sorted pairs are its runs.
///
/// # Errors
///
/// Fails only if allocation fails, or if `n * m` is above `usize::MAX`.
///
/// ```
/// use intervallum::proved::examples::*;
///
/// fn main() -> Result<(), std::boxed::Box<dyn std::error::Error>> {
///     let alloc = Global;
///     let whole: IntervalSet<i8> = IntervalSet::whole(alloc)?;
///     let (sums, is_cut) = add_within(&whole, &whole)?;
///     assert!(sums == whole && is_cut);
///     Ok(())
/// }
/// ```
///
/// # Proved
///
/// On success, the members are exactly the sums of a member of each set that are in the range, and the flag is true exactly when some sum is not.
///
/// ```text
/// ensures members { IfOk result (λ r. IsRunsOf r.0 (Clipped B.whole (Sums (Covers a.now) (Covers b.now)))) }
/// ensures cut { IfOk result (λ r. IsTrue r.1 ↔ HasSome (Without (Sums (Covers a.now) (Covers b.now)) (IsBetween B.whole))) }
/// ```
///
/// Words: [`IsRunsOf`](crate::definitions#IsRunsOf), [`Clipped`](crate::definitions#Clipped), [`Sums`](crate::definitions#Sums), [`Covers`](crate::definitions#Covers), [`HasSome`](crate::definitions#HasSome), [`Without`](crate::definitions#Without), [`IsBetween`](crate::definitions#IsBetween).
pub fn add_within<B: Width>(
    a: &IntervalSet<B>,
    b: &IntervalSet<B>,
) -> Result<(IntervalSet<B>, bool), AllocError> {
    let is_cut = !a.fits_add(b);
    Ok((combine_all(a, b, Combined::Sum)?, is_cut))
}

/// Returns the differences of a member of `a` and one of `b` that are in the range, and true
/// exactly when some difference is not. If either set is empty, returns the empty set and false.
///
/// `O(n m log (n m))` for `n` and `m` runs. Reserves `n * m` runs for the pairs, and then as many
/// for the answer unless the sorted pairs are its runs.
///
/// # Errors
///
/// Fails only if allocation fails, or if `n * m` is above `usize::MAX`.
///
/// ```
/// use intervallum::proved::examples::*;
///
/// fn main() -> Result<(), std::boxed::Box<dyn std::error::Error>> {
///     let alloc = Global;
///     let whole: IntervalSet<i8> = IntervalSet::whole(alloc)?;
///     let none = IntervalSet::empty(alloc);
///     let (differences, is_cut) = sub_within(&whole, &none)?;
///     assert!(differences == none && !is_cut);
///     Ok(())
/// }
/// ```
///
/// # Proved
///
/// On success, the members are exactly the differences of a member of `a` and one of `b` that are in the range, and the flag is true exactly when some difference is not.
///
/// ```text
/// ensures members { IfOk result (λ r. IsRunsOf r.0 (Clipped B.whole (Differences (Covers a.now) (Covers b.now)))) }
/// ensures cut { IfOk result (λ r. IsTrue r.1 ↔ HasSome (Without (Differences (Covers a.now) (Covers b.now)) (IsBetween B.whole))) }
/// ```
///
/// Words: [`IsRunsOf`](crate::definitions#IsRunsOf), [`Clipped`](crate::definitions#Clipped), [`Differences`](crate::definitions#Differences), [`Covers`](crate::definitions#Covers), [`HasSome`](crate::definitions#HasSome), [`Without`](crate::definitions#Without), [`IsBetween`](crate::definitions#IsBetween).
pub fn sub_within<B: Width>(
    a: &IntervalSet<B>,
    b: &IntervalSet<B>,
) -> Result<(IntervalSet<B>, bool), AllocError> {
    let is_cut = !a.fits_sub(b);
    Ok((combine_all(a, b, Combined::Difference)?, is_cut))
}

/// Returns the sums of a member of each set that are in the window. If the window or either set is
/// empty, returns the empty set.
///
/// Makes only the `k` pairs of runs whose sums reach the window, each by one run of `a` and
/// neighbours in `b`: `O(n log m + k log k)` for `n` and `m` runs. Allocates as it goes, at most
/// about `3 k` runs; if both sets are one run, at most one run.
///
/// # Errors
///
/// Fails only if allocation fails.
///
/// ```
/// use intervallum::proved::examples::*;
///
/// fn main() -> Result<(), std::boxed::Box<dyn std::error::Error>> {
///     let alloc = Global;
///     let a: IntervalSet<i64> = [(0, 0), (10, 12), (90, 95)].to_interval_set(alloc)?;
///     let b: IntervalSet<i64> = [(1, 2), (50, 60)].to_interval_set(alloc)?;
///     let sums = sums_in_window(&a, &b, &Interval::new(12, 62))?;
///     assert!(sums == [(12, 14), (50, 62)].to_interval_set(alloc)?);
///     Ok(())
/// }
/// ```
///
/// # Proved
///
/// On success, the members are exactly the sums of a member of each set that are in the window.
///
/// ```text
/// ensures { IfOk result (λ L. IsRunsOf L (Clipped window.now (Sums (Covers a.now) (Covers b.now)))) }
/// ```
///
/// Words: [`IsRunsOf`](crate::definitions#IsRunsOf), [`Clipped`](crate::definitions#Clipped), [`Sums`](crate::definitions#Sums), [`Covers`](crate::definitions#Covers).
pub fn sums_in_window<B: Width>(
    a: &IntervalSet<B>,
    b: &IntervalSet<B>,
    window: &Interval<B>,
) -> Result<IntervalSet<B>, AllocError> {
    combine(a, b, Combined::Sum, *window, 0)
}

/// Returns the differences of a member of `a` and one of `b` that are in the window. If the window
/// or either set is empty, returns the empty set.
///
/// Makes only the `k` pairs of runs whose differences reach the window, each by one run of `a` and
/// neighbours in `b`: `O(n log m + k log k)` for `n` and `m` runs. Allocates as it goes, at most
/// about `3 k` runs; if both sets are one run, at most one run.
///
/// # Errors
///
/// Fails only if allocation fails.
///
/// ```
/// use intervallum::proved::examples::*;
///
/// fn main() -> Result<(), std::boxed::Box<dyn std::error::Error>> {
///     let alloc = Global;
///     let a: IntervalSet<i64> = [(0, 0), (10, 12), (90, 95)].to_interval_set(alloc)?;
///     let b: IntervalSet<i64> = [(1, 2), (50, 60)].to_interval_set(alloc)?;
///     let differences = differences_in_window(&a, &b, &Interval::new(0, 39))?;
///     assert!(differences == [(8, 11), (30, 39)].to_interval_set(alloc)?);
///     Ok(())
/// }
/// ```
///
/// # Proved
///
/// On success, the members are exactly the differences of a member of `a` and one of `b` that are in the window.
///
/// ```text
/// ensures { IfOk result (λ L. IsRunsOf L (Clipped window.now (Differences (Covers a.now) (Covers b.now)))) }
/// ```
///
/// Words: [`IsRunsOf`](crate::definitions#IsRunsOf), [`Clipped`](crate::definitions#Clipped), [`Differences`](crate::definitions#Differences), [`Covers`](crate::definitions#Covers).
pub fn differences_in_window<B: Width>(
    a: &IntervalSet<B>,
    b: &IntervalSet<B>,
    window: &Interval<B>,
) -> Result<IntervalSet<B>, AllocError> {
    combine(a, b, Combined::Difference, *window, 0)
}

/// The results over a member of each that are in the range, with room for all pairs of runs
/// reserved first.
fn combine_all<B: Width>(
    a: &IntervalSet<B>,
    b: &IntervalSet<B>,
    op: Combined,
) -> Result<IntervalSet<B>, AllocError> {
    let pairs = a.interval_count().checked_mul(b.interval_count());
    combine(a, b, op, Interval::whole(), pairs.ok_or(AllocError)?)
}

/// The results over a member of each that are in the window, with room for a number of pairs of
/// runs reserved first.
fn combine<B: Width>(
    a: &IntervalSet<B>,
    b: &IntervalSet<B>,
    op: Combined,
    window: Interval<B>,
    room: usize,
) -> Result<IntervalSet<B>, AllocError> {
    if window.is_empty() {
        return Ok(IntervalSet::empty(a.allocator()));
    }
    let left = a.iter().as_slice();
    let right = b.iter().as_slice();
    if left.len() == 1 && right.len() == 1 {
        return IntervalSet::of(a.allocator(), pair_in_window(left[0], right[0], op, window));
    }
    combine_runs(a.allocator(), left, b, op, window, room)
}

/// The results over each pair of a run of a list and one of a set that are in the window.
fn combine_runs<B: Width>(
    alloc: Global,
    left: &[Interval<B>],
    right: &IntervalSet<B>,
    op: Combined,
    window: Interval<B>,
    room: usize,
) -> Result<IntervalSet<B>, AllocError> {
    let mut entries = Vec::with_capacity(alloc, room)?;
    push_rows(&mut entries, left, right, op, window)?;
    coalesce(alloc, entries)
}
