// Written by bindings/rust/extract from crates/ivl_store/src/store/by_words.rt.
//! Narrowing by a sum where the members of the sets lie close together.

#[allow(unused_imports)]
use crate::rattle::prelude::*;
use super::narrowed_sets::{LeftOfThree, narrowed_one_by_one};
use super::spares::Spares;
use super::words::{Words, above, is_below, is_past, set_of_word, supported, word_of, word_within};
use crate::proved::intervallum::interval_set::IntervalSet;
use crate::proved::intervallum::ops::{Bounded, IsEmpty};
use crate::proved::intervallum::width::Width;
use crate::rattle::std::alloc::AllocError;

/// How far from 0 a set that is narrowed by a word begins at most.
const FARTHEST: i128 = 1 << 61;

/// Returns what narrowing leaves at x, y and z of a sum: by words where the sums of x and y lie within 64 numbers, and both
/// sets begin not too far from 0, and else for one after another.
#[inline]
pub(super) fn narrowed_by_words<B: Width>(
    x: &IntervalSet<B>,
    y: &IntervalSet<B>,
    z: &IntervalSet<B>,
    spares: &mut Spares<B>,
) -> Result<LeftOfThree<B>, AllocError> {
    x.in_whole();
    y.in_whole();
    z.in_whole();
    if x.is_empty() || y.is_empty() || z.is_empty() || is_far(x) || is_far(y) {
        return narrowed_one_by_one(x, y, z, spares);
    }
    let x_base = base_of(x);
    let y_base = base_of(y);
    let x_span = span_of(x, x_base);
    let y_span = span_of(y, y_base);
    if 63 < x_span + y_span {
        return narrowed_one_by_one(x, y, z, spares);
    }
    left_by_words(x, y, z, x_base, y_base, x_span <= y_span, spares)
}

/// Whether the least member of a set is far from 0.
fn is_far<B: Width>(set: &IntervalSet<B>) -> bool {
    set.in_whole();
    let number = set.lower().number();
    number < -FARTHEST || FARTHEST < number
}

/// The least member of a set.
fn base_of<B: Width>(set: &IntervalSet<B>) -> i64 {
    set.in_whole();
    set.lower().number() as i64
}

/// How far the greatest member of a set stands above a base.
fn span_of<B: Width>(set: &IntervalSet<B>, base: i64) -> i128 {
    set.in_whole();
    above(set.upper(), base)
}

/// The sum of two bases.
fn sum_of(x_base: i64, y_base: i64) -> i64 {
    x_base + y_base
}

/// The word of a set, of its members from a base on.
fn word_of_set<B: Width>(set: &IntervalSet<B>, base: i64) -> u64 {
    set.in_whole();
    if is_below(set.lower(), base) || is_past(set.upper(), base) {
        return word_of(set.iter().as_slice(), base);
    }
    word_of_close_set(set, base)
}

/// The word of a set, all of whose members lie from a base on to 63 above.
fn word_of_close_set<B: Width>(set: &IntervalSet<B>, base: i64) -> u64 {
    word_within(set.iter().as_slice(), base)
}

/// What narrowing leaves at x, y and z of a sum, where x and y begin at these bases and their sums have at most 64 numbers between the least and the
/// greatest.
fn left_by_words<B: Width>(
    x: &IntervalSet<B>,
    y: &IntervalSet<B>,
    z: &IntervalSet<B>,
    x_base: i64,
    y_base: i64,
    by_x: bool,
    spares: &mut Spares<B>,
) -> Result<LeftOfThree<B>, AllocError> {
    let z_base = sum_of(x_base, y_base);
    let xs = word_of_close_set(x, x_base);
    let ys = word_of_close_set(y, y_base);
    let zs = word_of_set(z, z_base);
    let kept = supported_by(xs, ys, zs, by_x);
    let left_of_x = left_of_word(x, x_base, xs, kept.x, spares)?;
    let left_of_y = left_of_word(y, y_base, ys, kept.y, spares)?;
    let left_of_z = left_of_word(z, z_base, zs, kept.z, spares)?;
    Ok((left_of_x, left_of_y, left_of_z))
}

/// What is left of three sets of small numbers of which a sum holds, by a walk over the bits of x or of y.
fn supported_by(x: u64, y: u64, z: u64, by_x: bool) -> Words {
    if by_x {
        return supported(x, y, z);
    }
    let turned = supported(y, x, z);
    Words {
        x: turned.y,
        y: turned.x,
        z: turned.z,
    }
}

/// Returns the set of the word `left` in place of a set that has the word `had`, or `None` if that is all of it.
#[inline(always)]
fn left_of_word<B: Width>(
    set: &IntervalSet<B>,
    base: i64,
    had: u64,
    left: u64,
    spares: &mut Spares<B>,
) -> Result<Option<IntervalSet<B>>, AllocError> {
    set.in_whole();
    if keeps_all(set, base, had, left) {
        return Ok(None);
    }
    let empty = spares.take(set.allocator());
    Ok(Some(set_of_word(empty, left, base)?))
}

/// Whether the word `left` has all members of a set that has the word `had`.
#[inline(always)]
fn keeps_all<B: Width>(set: &IntervalSet<B>, base: i64, had: u64, left: u64) -> bool {
    set.in_whole();
    if left != had || is_below(set.lower(), base) {
        return false;
    }
    if is_past(set.upper(), base) {
        return false;
    }
    true
}
