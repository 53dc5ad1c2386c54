// Written by bindings/rust/extract from crates/ivl_buffers/src/set_calls.rt.
//! Sets made of lists.

#[allow(unused_imports)]
use crate::rattle::prelude::*;
use crate::proved::ivl_buffers::merging::{complement, difference, intersection, symmetric_difference, union};
use crate::proved::ivl_buffers::pair::Pair;
use crate::proved::ivl_buffers::reading::{are_inside, set_of};
use crate::proved::ivl_buffers::run_lists::{can_walk, can_walk_both};
use crate::proved::ivl_buffers::writing::{OUT_OF_RANGE, tell};
use crate::proved::intervallum::interval_set::IntervalSet;
use crate::proved::intervallum::ops::{Complement, Difference, Intersection, SymmetricDifference, Union};
use crate::rattle::std::alloc::{AllocError, Global};

/// What is made of one list.
#[derive(Clone, Copy)]
pub enum OfOne {
    /// Its members.
    Same,
    /// The complement within the range.
    Rest,
}

/// What is made of two lists.
#[derive(Clone, Copy)]
pub enum OfTwo {
    /// The members of either.
    Either,
    /// The members of both.
    Both,
    /// The members of the first that are not in the second.
    FirstAlone,
    /// The members of exactly one.
    OneAlone,
}

/// Makes a set of one list, and writes its runs. Returns their number or an error code. `O(n log n)` for
/// `n` pairs, or `O(n)` if they ascend.
///
/// # Proved
///
/// The result is `out_of_range` exactly when a member is outside the range; else the runs of what is made of the members are written if there is room, and their number is returned, or it is `out_of_memory`. With a code nothing is written.
///
/// ```text
/// ensures { AnswersSet R.Bound.whole (Covers (map R.pair a.now))
///     (MadeOfOne R.Bound.whole making (Covers (map R.pair a.now))) (map R.pair out.old) (map R.pair out.new) result }
/// ```
///
/// Words: [`AnswersSet`](crate::definitions#AnswersSet), [`Covers`](crate::definitions#Covers), [`MadeOfOne`](crate::definitions#MadeOfOne).
pub fn of_one<R: Pair>(alloc: Global, making: OfOne, a: &[R], out: &mut [R]) -> i64 {
    match making {
        OfOne::Same => normalized(alloc, a, out),
        OfOne::Rest => rest(alloc, a, out),
    }
}

fn normalized<R: Pair>(alloc: Global, a: &[R], out: &mut [R]) -> i64 {
    if !are_inside(a) {
        return OUT_OF_RANGE;
    }
    tell(set_of(alloc, a), out)
}

fn rest<R: Pair>(alloc: Global, a: &[R], out: &mut [R]) -> i64 {
    if can_walk(a) {
        return walk_rest(a, out);
    }
    if !are_inside(a) {
        return OUT_OF_RANGE;
    }
    tell(rest_of(alloc, a), out)
}

/// The complement of the members of a list.
fn rest_of<R: Pair>(alloc: Global, a: &[R]) -> Result<IntervalSet<R::Bound>, AllocError> {
    let set = set_of(alloc, a)?;
    set.complement()
}

/// Writes the complement of a run list, and returns its number of runs. If there may be too little
/// room, counts them first.
fn walk_rest<R: Pair>(a: &[R], out: &mut [R]) -> i64 {
    if a.len() < out.len() {
        return complement(a, out) as i64;
    }
    let total = complement(a, &mut out[..0]);
    if out.len() < total {
        return total as i64;
    }
    complement(a, out) as i64
}

/// Makes a set of two lists, and writes its runs. Returns their number or an error code. `O(n + m)` if
/// both are lists of runs, else `O(n log n + m log m)`.
///
/// # Proved
///
/// The result is `out_of_range` exactly when a member of either list is outside the range; else the runs of what is made of the members are written if there is room, and their number is returned, or it is `out_of_memory`. With a code nothing is written.
///
/// ```text
/// ensures { AnswersSet R.Bound.whole (Union (Covers (map R.pair a.now)) (Covers (map R.pair b.now)))
///     (MadeOfTwo making (Covers (map R.pair a.now)) (Covers (map R.pair b.now))) (map R.pair out.old) (map R.pair out.new) result }
/// ```
///
/// Words: [`AnswersSet`](crate::definitions#AnswersSet), [`Union`](crate::definitions#Union), [`Covers`](crate::definitions#Covers), [`MadeOfTwo`](crate::definitions#MadeOfTwo).
pub fn of_two<R: Pair>(alloc: Global, making: OfTwo, a: &[R], b: &[R], out: &mut [R]) -> i64 {
    if can_walk_both(a, b) {
        return merge(making, a, b, out);
    }
    if !are_inside(a) || !are_inside(b) {
        return OUT_OF_RANGE;
    }
    tell(made_of_two(alloc, making, a, b), out)
}

fn made_of_two<R: Pair>(
    alloc: Global,
    making: OfTwo,
    a: &[R],
    b: &[R],
) -> Result<IntervalSet<R::Bound>, AllocError> {
    let left = set_of(alloc, a)?;
    let right = set_of(alloc, b)?;
    match making {
        OfTwo::Either => left.union(&right),
        OfTwo::Both => left.intersection(&right),
        OfTwo::FirstAlone => left.difference(&right),
        OfTwo::OneAlone => left.symmetric_difference(&right),
    }
}

/// Writes what is made of two run lists, and returns its number of runs. If there may be too little
/// room, counts them first.
fn merge<R: Pair>(making: OfTwo, a: &[R], b: &[R], out: &mut [R]) -> i64 {
    if a.len() + b.len() <= out.len() {
        return walk(making, a, b, out) as i64;
    }
    let count = walk(making, a, b, &mut out[..0]);
    if out.len() < count {
        return count as i64;
    }
    walk(making, a, b, out) as i64
}

/// Writes as many runs of what is made of two run lists as there is room for, and returns the
/// number of all of them.
fn walk<R: Pair>(making: OfTwo, a: &[R], b: &[R], out: &mut [R]) -> usize {
    match making {
        OfTwo::Either => union(a, b, out),
        OfTwo::Both => intersection(a, b, out),
        OfTwo::FirstAlone => difference(a, b, out),
        OfTwo::OneAlone => symmetric_difference(a, b, out),
    }
}
