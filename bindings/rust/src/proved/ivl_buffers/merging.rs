// Written by bindings/rust/extract from crates/ivl_buffers/src/merging.rt.
//! What is made of two run lists by one walk over both, in the caller's buffer.
//!
//! A walk writes the runs of its answer to the start of the buffer, as many as it has room for, and
//! returns the number of all of them. It is linear in the runs of both lists, and does not allocate.

#[allow(unused_imports)]
use crate::rattle::prelude::*;
use crate::proved::ivl_buffers::pair::Pair;
use crate::proved::ivl_merges::merges;
use crate::proved::ivl_merges::sink::Places;

/// Writes the members of both run lists. `O(n + m)`.
///
/// # Proved
///
/// The runs of exactly the numbers in both lists are laid in the slice, as many as it has room for, and the number of all is returned, at most as many as the two lists have together.
///
/// ```text
/// requires first { IsRunListIn R.Bound.whole (map R.pair a.now) }
/// requires second { IsRunListIn R.Bound.whole (map R.pair b.now) }
/// requires counted { length a.now + length b.now < 2 ^ 63 }
/// ensures runs { (L : List (ℤ × ℤ)) × IsLaid (Intersection (Covers (map R.pair a.now)) (Covers (map R.pair b.now)))
///     (map R.pair out.old) (map R.pair out.new) result L }
/// ensures at_most { result ≤ length a.now + length b.now }
/// ```
///
/// Words: [`IsRunListIn`](crate::definitions#IsRunListIn), [`IsLaid`](crate::definitions#IsLaid), [`Intersection`](crate::definitions#Intersection), [`Covers`](crate::definitions#Covers).
#[cfg_attr(debug_assertions, track_caller)]
pub fn intersection<R: Pair>(a: &[R], b: &[R], out: &mut [R]) -> usize {
    debug_assert!({ #[allow(unused_imports)] use crate::proved::ivl_interval::ops::*; crate::proved::ivl_buffers::run_lists::is_run_list(a) && crate::proved::ivl_buffers::run_lists::is_run_list(b) }, "{}", "the condition of `intersection` is broken: crate::proved::ivl_buffers::run_lists::is_run_list(a) && crate::proved::ivl_buffers::run_lists::is_run_list(b)");
    let mut made = Places::new(out);
    merges::intersection(a, b, &mut made);
    made.count()
}

/// Writes the members of the first run list that are not in the second. `O(n + m)`.
///
/// # Proved
///
/// The runs of exactly the numbers in `a` and not in `b` are laid in the slice, as many as it has room for, and the number of all is returned, at most as many as the two lists have together.
///
/// ```text
/// requires first { IsRunListIn R.Bound.whole (map R.pair a.now) }
/// requires second { IsRunListIn R.Bound.whole (map R.pair b.now) }
/// requires counted { length a.now + length b.now < 2 ^ 63 }
/// ensures runs { (L : List (ℤ × ℤ)) × IsLaid (Without (Covers (map R.pair a.now)) (Covers (map R.pair b.now)))
///     (map R.pair out.old) (map R.pair out.new) result L }
/// ensures at_most { result ≤ length a.now + length b.now }
/// ```
///
/// Words: [`IsRunListIn`](crate::definitions#IsRunListIn), [`IsLaid`](crate::definitions#IsLaid), [`Without`](crate::definitions#Without), [`Covers`](crate::definitions#Covers).
#[cfg_attr(debug_assertions, track_caller)]
pub fn difference<R: Pair>(a: &[R], b: &[R], out: &mut [R]) -> usize {
    debug_assert!({ #[allow(unused_imports)] use crate::proved::ivl_interval::ops::*; crate::proved::ivl_buffers::run_lists::is_run_list(a) && crate::proved::ivl_buffers::run_lists::is_run_list(b) }, "{}", "the condition of `difference` is broken: crate::proved::ivl_buffers::run_lists::is_run_list(a) && crate::proved::ivl_buffers::run_lists::is_run_list(b)");
    let mut made = Places::new(out);
    merges::difference(a, b, &mut made);
    made.count()
}

/// Writes the numbers of the range that are in no run of the list. `O(n)`.
///
/// # Proved
///
/// The runs of exactly the numbers of the range that are not in the list are laid in the slice, as many as it has room for, and the number of all is returned, at most one more than the list has.
///
/// ```text
/// requires runs { IsRunListIn R.Bound.whole (map R.pair runs.now) }
/// requires counted { length runs.now < 2 ^ 62 }
/// ensures runs { (L : List (ℤ × ℤ)) × IsLaid (Complement R.Bound.whole (Covers (map R.pair runs.now))) (map R.pair out.old) (map R.pair out.new) result L }
/// ensures at_most { result ≤ length runs.now + 1 }
/// ```
///
/// Words: [`IsRunListIn`](crate::definitions#IsRunListIn), [`IsLaid`](crate::definitions#IsLaid), [`Complement`](crate::definitions#Complement), [`Covers`](crate::definitions#Covers).
#[cfg_attr(debug_assertions, track_caller)]
pub fn complement<R: Pair>(runs: &[R], out: &mut [R]) -> usize {
    debug_assert!({ #[allow(unused_imports)] use crate::proved::ivl_interval::ops::*; crate::proved::ivl_buffers::run_lists::is_run_list(runs) }, "{}", "the condition of `complement` is broken: crate::proved::ivl_buffers::run_lists::is_run_list(runs)");
    let mut made = Places::new(out);
    merges::complement(runs, &mut made);
    made.count()
}

/// Writes the members of either run list. `O(n + m)`.
///
/// # Proved
///
/// The runs of exactly the numbers in either list are laid in the slice, as many as it has room for, and the number of all is returned, at most as many as the two lists have together.
///
/// ```text
/// requires first { IsRunListIn R.Bound.whole (map R.pair a.now) }
/// requires second { IsRunListIn R.Bound.whole (map R.pair b.now) }
/// requires counted { length a.now + length b.now < 2 ^ 63 }
/// ensures runs { (L : List (ℤ × ℤ)) × IsLaid (Union (Covers (map R.pair a.now)) (Covers (map R.pair b.now)))
///     (map R.pair out.old) (map R.pair out.new) result L }
/// ensures at_most { result ≤ length a.now + length b.now }
/// ```
///
/// Words: [`IsRunListIn`](crate::definitions#IsRunListIn), [`IsLaid`](crate::definitions#IsLaid), [`Union`](crate::definitions#Union), [`Covers`](crate::definitions#Covers).
#[cfg_attr(debug_assertions, track_caller)]
pub fn union<R: Pair>(a: &[R], b: &[R], out: &mut [R]) -> usize {
    debug_assert!({ #[allow(unused_imports)] use crate::proved::ivl_interval::ops::*; crate::proved::ivl_buffers::run_lists::is_run_list(a) && crate::proved::ivl_buffers::run_lists::is_run_list(b) }, "{}", "the condition of `union` is broken: crate::proved::ivl_buffers::run_lists::is_run_list(a) && crate::proved::ivl_buffers::run_lists::is_run_list(b)");
    let mut made = Places::new(out);
    merges::union(a, b, &mut made);
    made.count()
}

/// Writes the members of exactly one of the two run lists. `O(n + m)`.
///
/// # Proved
///
/// The runs of exactly the numbers in either list and not in both are laid in the slice, as many as it has room for, and the number of all is returned, at most as many as the two lists have together.
///
/// ```text
/// requires first { IsRunListIn R.Bound.whole (map R.pair a.now) }
/// requires second { IsRunListIn R.Bound.whole (map R.pair b.now) }
/// requires counted { length a.now + length b.now < 2 ^ 63 }
/// ensures runs { (L : List (ℤ × ℤ)) × IsLaid (SymmetricDifference (Covers (map R.pair a.now)) (Covers (map R.pair b.now)))
///     (map R.pair out.old) (map R.pair out.new) result L }
/// ensures at_most { result ≤ length a.now + length b.now }
/// ```
///
/// Words: [`IsRunListIn`](crate::definitions#IsRunListIn), [`IsLaid`](crate::definitions#IsLaid), [`SymmetricDifference`](crate::definitions#SymmetricDifference), [`Covers`](crate::definitions#Covers).
#[cfg_attr(debug_assertions, track_caller)]
pub fn symmetric_difference<R: Pair>(a: &[R], b: &[R], out: &mut [R]) -> usize {
    debug_assert!({ #[allow(unused_imports)] use crate::proved::ivl_interval::ops::*; crate::proved::ivl_buffers::run_lists::is_run_list(a) && crate::proved::ivl_buffers::run_lists::is_run_list(b) }, "{}", "the condition of `symmetric_difference` is broken: crate::proved::ivl_buffers::run_lists::is_run_list(a) && crate::proved::ivl_buffers::run_lists::is_run_list(b)");
    let mut made = Places::new(out);
    merges::symmetric_difference(a, b, &mut made);
    made.count()
}
