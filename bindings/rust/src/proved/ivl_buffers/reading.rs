// Written by bindings/rust/extract from crates/ivl_buffers/src/reading.rt.
//! The set of the members of a list of pairs.

#[allow(unused_imports)]
use crate::rattle::prelude::*;
use crate::proved::ivl_buffers::pair::Pair;
use crate::proved::intervallum::interval::Interval;
use crate::proved::intervallum::interval_set::IntervalSet;
use crate::proved::intervallum::ops::Range;
use crate::proved::intervallum::sweep::coalesce;
use crate::proved::intervallum::width::Width;
use crate::rattle::std::alloc::{AllocError, Global};

/// Returns true exactly when each member of the pairs is in the range. `O(n)` for `n` pairs, does not
/// allocate.
///
/// # Proved
///
/// True exactly when each number of the pairs is in the range.
///
/// ```text
/// ensures { IsTrue result ↔ IsSubset (Covers (map R.pair runs.now)) (IsBetween R.Bound.whole) }
/// ```
///
/// Words: [`IsSubset`](crate::definitions#IsSubset), [`Covers`](crate::definitions#Covers), [`IsBetween`](crate::definitions#IsBetween).
pub fn are_inside<R: Pair>(runs: &[R]) -> bool {
    for run in runs {
        if !is_inside(*run) {
            return false;
        }
    }
    true
}

/// True exactly when each member of the pair is in the range.
pub(crate) fn is_inside<R: Pair>(run: R) -> bool {
    is_crossed(run) || Interval::in_range(run.lower(), run.upper())
}

/// True exactly when the pair is crossed.
fn is_crossed<R: Pair>(run: R) -> bool {
    run.upper() < run.lower()
}

/// Returns the set of the members of the pairs. `O(n log n)` for `n` pairs, or `O(n)` if they ascend.
///
/// # Proved
///
/// On success, the members are exactly the numbers of the pairs.
///
/// ```text
/// requires { IsSubset (Covers (map R.pair runs.now)) (IsBetween R.Bound.whole) }
/// ensures { IfOk result (λ L. IsRunsOf L (Covers (map R.pair runs.now))) }
/// ```
///
/// Words: [`IsSubset`](crate::definitions#IsSubset), [`Covers`](crate::definitions#Covers), [`IsBetween`](crate::definitions#IsBetween), [`IsRunsOf`](crate::definitions#IsRunsOf).
#[cfg_attr(debug_assertions, track_caller)]
pub fn set_of<R: Pair>(alloc: Global, runs: &[R]) -> Result<IntervalSet<R::Bound>, AllocError> {
    debug_assert!({ #[allow(unused_imports)] use crate::proved::ivl_interval::ops::*; are_inside(runs) }, "{}", "the condition of `set_of` is broken: are_inside(runs)");
    let mut list = Vec::with_capacity(alloc, runs.len())?;
    for run in runs {
        list.push(interval_of(*run))?;
    }
    coalesce(alloc, list)
}

/// The interval with the members of the pair.
pub(crate) fn interval_of<R: Pair>(run: R) -> Interval<R::Bound> {
    if is_crossed(run) {
        Interval::new(R::Bound::one(), R::Bound::zero())
    } else {
        Interval::new(run.lower(), run.upper())
    }
}

/// Returns true exactly when some pair of the list has the number. `O(n)`, does not allocate.
///
/// # Proved
///
/// True exactly when some pair has the number.
///
/// ```text
/// ensures { IsTrue result ↔ Covers (map R.pair runs.now) (R.Bound.value v) }
/// ```
///
/// Words: [`Covers`](crate::definitions#Covers).
pub fn contains<R: Pair>(runs: &[R], v: R::Bound) -> bool {
    for run in runs {
        if has(*run, v) {
            return true;
        }
    }
    false
}

/// True exactly when the pair has the number.
fn has<R: Pair>(run: R, v: R::Bound) -> bool {
    run.lower() <= v && v <= run.upper()
}
