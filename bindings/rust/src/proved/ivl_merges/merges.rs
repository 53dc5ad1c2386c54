// Written by bindings/rust/extract from crates/ivl_merges/src/merges.rt.
//! What is made of two lists of runs by one walk over both, and of one list by a walk over it.
//!
//! Each is linear in the runs of its lists, and writes the runs of its answer to a sink that holds none
//! before. None allocates. In the loops of `union` and `intersection` no branch hangs on the values:
//! what a comparison tells is added to a place as 0 or 1, or chooses by a conditional move. No caller
//! takes in a walk over two lists, so that its loop has all registers to itself.

#[allow(unused_imports)]
use crate::rattle::prelude::*;
use crate::proved::ivl_merges::pair::Pair;
use crate::proved::ivl_merges::sink::Sink;
use crate::proved::ivl_interval::width::{SizeNumber, Width};
use crate::rattle::std::hint::select_unpredictable;

/// Writes the members of either list.
///
/// The caller must ensure that both lists are runs of sets in the range, from the left, with at least one
/// number missing between neighbours, and that the sink is empty and has room for as many runs as the
/// two lists have. `O(n + m)`, and adds at most `n + m` runs. Does not allocate.
///
/// ```
/// use intervallum::proved::examples::*;
///
/// fn main() -> Result<(), std::boxed::Box<dyn std::error::Error>> {
///     let alloc = Global;
///     let (a, b) = ([Interval::new(1, 5)], [Interval::new(4, 9)]);
///     let mut runs = Vec::with_capacity(alloc, 2)?;
///     merges::union(&a, &b, &mut runs);
///     assert!(runs.as_slice() == [Interval::new(1, 9)]);
///     Ok(())
/// }
/// ```
#[inline(never)]
///
/// # Proved
///
/// The sink then holds the runs of exactly the numbers that are in either list, at most as many as the two have together.
///
/// ```text
/// requires first { IsRunListIn R.Bound.whole (map R.pair a.now) }
/// requires second { IsRunListIn R.Bound.whole (map R.pair b.now) }
/// requires empty { S.holds out.old out.old [] }
/// requires room { S.count out.old + (length a.now + length b.now) ≤ S.room out.old }
/// ensures { (L : List (ℤ × ℤ)) × IsMerged (S.holds out.old out.new) (Union (Covers (map R.pair a.now)) (Covers (map R.pair b.now)))
///     (length a.now + length b.now) L }
/// ```
///
/// Words: [`IsRunListIn`](crate::definitions#IsRunListIn), [`IsMerged`](crate::definitions#IsMerged), [`Union`](crate::definitions#Union), [`Covers`](crate::definitions#Covers).
pub fn union<R: Pair, S: Sink<R>>(a: &[R], b: &[R], out: &mut S) {
    let (mut i, mut j) = (0, 0);
    let Some(mut last) = take_first(a, &mut i, b, &mut j) else {
        return;
    };
    out.push(last);
    'walk: while let Some(run) = take_first(a, &mut i, b, &mut j) {
        last = push_joined(out, last, run);
    }
}

/// Adds a run that starts no lower than the last one, and returns the run that is then the last. The
/// last run is written again unless the new one is apart from it, so that no branch hangs on their
/// values.
///
/// The caller must ensure that neither run is empty, and that the sink has a run and room for one more.
/// `O(1)`. Does not allocate.
///
/// ```
/// use intervallum::proved::examples::*;
///
/// fn main() -> Result<(), std::boxed::Box<dyn std::error::Error>> {
///     let alloc = Global;
///     let mut runs = Vec::with_capacity(alloc, 2)?;
///     let first = Interval::new(1, 5);
///     runs.push(first)?;
///     assert!(merges::push_joined(&mut runs, first, Interval::new(6, 9)) == Interval::new(1, 9));
///     assert!(runs.as_slice() == [Interval::new(1, 9)]);
///     Ok(())
/// }
/// ```
#[inline]
///
/// # Proved
///
/// If the runs that the sink holds start no higher than `run`, and `last` is their last, it then holds the runs of exactly the same numbers and those of `run`, none of which starts higher, and the result is the last of them.
///
/// ```text
/// requires last { IsRunIn R.Bound.whole (R.pair last) }
/// requires run { IsRunIn R.Bound.whole (R.pair run) }
/// requires some { 0 < S.count out.old }
/// requires room { S.count out.old < S.room out.old }
/// ensures adds { (start : S) (L : List (ℤ × ℤ)) → S.holds start out.old L → IsMaximal L → StartsBy (R.pair run).0 L → Some (R.pair last) ≡ slice_get L (length L - 1)
///     → (M : List (ℤ × ℤ)) × S.holds start out.new M × AddsRun L (R.pair run) M × (Some (R.pair result) ≡ slice_get M (length M - 1)) }
/// ensures last { IsRunIn R.Bound.whole (R.pair result) }
/// ensures some { 0 < S.count out.new }
/// ensures count { S.count out.new ≤ S.count out.old + 1 }
/// ensures room { S.room out.new ≡ S.room out.old }
/// ```
///
/// Words: [`IsRunIn`](crate::definitions#IsRunIn), [`IsMaximal`](crate::definitions#IsMaximal), [`StartsBy`](crate::definitions#StartsBy), [`AddsRun`](crate::definitions#AddsRun).
pub fn push_joined<R: Pair, S: Sink<R>>(out: &mut S, last: R, run: R) -> R {
    let is_joined = joins(last, run);
    let lower = select_unpredictable(is_joined, last.lower(), run.lower());
    let next = R::of(lower, last.upper().max(run.upper()));
    out.push_over(is_joined, next);
    next
}

/// Returns true exactly when no number is missing between a run and one that starts no lower.
///
/// The caller must ensure that neither is empty. `O(1)`. Does not allocate.
///
/// ```
/// use intervallum::proved::examples::*;
///
/// fn main() -> Result<(), std::boxed::Box<dyn std::error::Error>> {
///     let alloc = Global;
///     let run = Interval::new(1, 3);
///     assert!(merges::joins(run, Interval::new(4, 9)) && !merges::joins(run, Interval::new(5, 9)));
///     Ok(())
/// }
/// ```
#[inline]
///
/// # Proved
///
/// True exactly when `run` starts no higher than one above the end of `last`.
///
/// ```text
/// requires last { IsRunIn R.Bound.whole (R.pair last) }
/// requires run { IsRunIn R.Bound.whole (R.pair run) }
/// ensures { IsTrue result ↔ ((R.pair run).0 ≤ℤ ((R.pair last).1 +ℤ pos 1)) }
/// ```
///
/// Words: [`IsRunIn`](crate::definitions#IsRunIn).
pub fn joins<R: Pair>(last: R, run: R) -> bool {
    let (end, start) = (last.upper(), run.lower());
    // by one comparison: the width is one where the run starts no higher than the other ends
    R::Bound::width(&end, &start.max(end)).number() <= 2
}

/// Takes the pair that starts first of those at two places, if there is one, and advances its
/// place.
fn take_first<R: Pair>(a: &[R], i: &mut usize, b: &[R], j: &mut usize) -> Option<R> {
    match (pair_at(a, *i), pair_at(b, *j)) {
        (Some(run), Some(other)) => {
            let is_first = run.lower() <= other.lower();
            *i += usize::from(is_first);
            *j += usize::from(!is_first);
            Some(select_unpredictable(is_first, run, other))
        }
        (Some(run), None) => {
            *i += 1;
            Some(run)
        }
        (None, Some(other)) => {
            *j += 1;
            Some(other)
        }
        (None, None) => None,
    }
}

/// Returns the pair at index `i`, if there is one. `O(1)`. Does not allocate.
///
/// ```
/// use intervallum::proved::examples::*;
///
/// fn main() -> Result<(), std::boxed::Box<dyn std::error::Error>> {
///     let alloc = Global;
///     assert!(merges::pair_at(&[Interval::new(1, 5)], 0) == Some(Interval::new(1, 5)));
///     Ok(())
/// }
/// ```
///
/// # Proved
///
/// The result is the pair at index `i`, or `None` if there is none.
///
/// ```text
/// ensures { result ≡ slice_get runs.now i }
/// ```
pub fn pair_at<R: Pair>(runs: &[R], i: usize) -> Option<R> {
    runs.get(i).copied()
}

/// Writes the members of both lists.
///
/// The caller must ensure that both lists are runs of sets in the range, from the left, with at least one
/// number missing between neighbours, and that the sink is empty and has room for as many runs as the
/// two lists have. `O(n + m)`, and adds at most `n + m` runs. Does not allocate.
///
/// ```
/// use intervallum::proved::examples::*;
///
/// fn main() -> Result<(), std::boxed::Box<dyn std::error::Error>> {
///     let alloc = Global;
///     let (a, b) = ([Interval::new(1, 5)], [Interval::new(4, 9)]);
///     let mut runs = Vec::with_capacity(alloc, 2)?;
///     merges::intersection(&a, &b, &mut runs);
///     assert!(runs.as_slice() == [Interval::new(4, 5)]);
///     Ok(())
/// }
/// ```
#[inline(never)]
///
/// # Proved
///
/// The sink then holds the runs of exactly the numbers that are in both lists, at most as many as the two have together.
///
/// ```text
/// requires first { IsRunListIn R.Bound.whole (map R.pair a.now) }
/// requires second { IsRunListIn R.Bound.whole (map R.pair b.now) }
/// requires empty { S.holds out.old out.old [] }
/// requires repeats { S.repeats out.old }
/// requires room { S.count out.old + (length a.now + length b.now) ≤ S.room out.old }
/// ensures { (L : List (ℤ × ℤ)) × IsMerged (S.holds out.old out.new) (Intersection (Covers (map R.pair a.now)) (Covers (map R.pair b.now)))
///     (length a.now + length b.now) L }
/// ```
///
/// Words: [`IsRunListIn`](crate::definitions#IsRunListIn), [`IsMerged`](crate::definitions#IsMerged), [`Intersection`](crate::definitions#Intersection), [`Covers`](crate::definitions#Covers).
pub fn intersection<R: Pair, S: Sink<R>>(a: &[R], b: &[R], out: &mut S) {
    let (mut i, mut j) = (0, 0);
    let mut heads = pair_at(a, 0).zip(pair_at(b, 0));
    'walk: while let Some(runs) = heads {
        let (run, other) = runs;
        let start = run.lower().max(other.lower());
        let end = run.upper().min(other.upper());
        out.push_filled(R::of(start, end));
        let ends_first = run.upper() <= other.upper();
        heads = next_heads(a, i, b, j, runs, ends_first);
        i += usize::from(ends_first);
        j += usize::from(!ends_first);
    }
}

/// Writes the members of the first list that are not in the second.
///
/// The caller must ensure that both lists are runs of sets in the range, from the left, with at least one
/// number missing between neighbours, and that the sink is empty and has room for as many runs as the
/// two lists have. `O(n + m)`, and adds at most `n + m` runs. Does not allocate.
///
/// ```
/// use intervallum::proved::examples::*;
///
/// fn main() -> Result<(), std::boxed::Box<dyn std::error::Error>> {
///     let alloc = Global;
///     let (a, b) = ([Interval::new(1, 5)], [Interval::new(4, 9)]);
///     let mut runs = Vec::with_capacity(alloc, 2)?;
///     merges::difference(&a, &b, &mut runs);
///     assert!(runs.as_slice() == [Interval::new(1, 3)]);
///     Ok(())
/// }
/// ```
#[inline(never)]
///
/// # Proved
///
/// The sink then holds the runs of exactly the numbers that are in `a` and not in `b`, at most as many as the two have together.
///
/// ```text
/// requires first { IsRunListIn R.Bound.whole (map R.pair a.now) }
/// requires second { IsRunListIn R.Bound.whole (map R.pair b.now) }
/// requires empty { S.holds out.old out.old [] }
/// requires room { S.count out.old + (length a.now + length b.now) ≤ S.room out.old }
/// ensures { (L : List (ℤ × ℤ)) × IsMerged (S.holds out.old out.new) (Without (Covers (map R.pair a.now)) (Covers (map R.pair b.now)))
///     (length a.now + length b.now) L }
/// ```
///
/// Words: [`IsRunListIn`](crate::definitions#IsRunListIn), [`IsMerged`](crate::definitions#IsMerged), [`Without`](crate::definitions#Without), [`Covers`](crate::definitions#Covers).
pub fn difference<R: Pair, S: Sink<R>>(a: &[R], b: &[R], out: &mut S) {
    let (mut i, mut j) = (0, 0);
    let mut held = pair_at(a, 0);
    'walk: while let Some(run) = held {
        if j < b.len() {
            let other = b[j];
            push_below(out, run, other);
            if other.upper() < run.upper() {
                held = Some(above(run, other));
                j += 1;
            } else {
                i += 1;
                held = pair_at(a, i);
            }
        } else {
            out.push(run);
            i += 1;
            held = pair_at(a, i);
        }
    }
}

/// Writes the numbers of the range that are in no run of the list.
///
/// The caller must ensure that the list is the runs of a set in the range, from the left, with at least
/// one number missing between neighbours, and that the sink is empty and has room for one run more than
/// the list has. `O(n)` runs, of which it adds at most `n + 1`. Does not allocate.
///
/// ```
/// use intervallum::proved::examples::*;
///
/// fn main() -> Result<(), std::boxed::Box<dyn std::error::Error>> {
///     let alloc = Global;
///     let mut runs = Vec::with_capacity(alloc, 2)?;
///     merges::complement(&[Interval::new(4u8, 9)], &mut runs);
///     assert!(runs.as_slice() == [Interval::new(0, 3), Interval::new(10, 254)]);
///     Ok(())
/// }
/// ```
// taken in by its caller, the loop keeps the number of runs in a register
#[inline]
///
/// # Proved
///
/// The sink then holds the runs of exactly the numbers of the range that are not in the list, at most one more than the list has.
///
/// ```text
/// requires runs { IsRunListIn R.Bound.whole (map R.pair runs.now) }
/// requires empty { S.holds out.old out.old [] }
/// requires room { S.count out.old + (length runs.now + 1) ≤ S.room out.old }
/// ensures { (L : List (ℤ × ℤ)) × IsMerged (S.holds out.old out.new) (Complement R.Bound.whole (Covers (map R.pair runs.now))) (length runs.now + 1) L }
/// ```
///
/// Words: [`IsRunListIn`](crate::definitions#IsRunListIn), [`IsMerged`](crate::definitions#IsMerged), [`Complement`](crate::definitions#Complement), [`Covers`](crate::definitions#Covers).
pub fn complement<R: Pair, S: Sink<R>>(runs: &[R], out: &mut S) {
    let Some((first, more)) = runs.split_first() else {
        out.push(R::of(R::Bound::min_value(), R::Bound::max_value()));
        return;
    };
    push_under(out, *first);
    let mut end = first.upper();
    for run in more {
        // a number is missing between two runs, so there is nothing to test
        let start = end.add_in_range(R::Bound::one());
        out.push(R::of(start, run.lower().sub_in_range(R::Bound::one())));
        end = run.upper();
    }
    push_past(out, end);
}

/// Writes the members of exactly one of the two lists.
///
/// The caller must ensure that both lists are runs of sets in the range, from the left, with at least one
/// number missing between neighbours, and that the sink is empty and has room for as many runs as the
/// two lists have. `O(n + m)`, and adds at most `n + m` runs. Does not allocate.
///
/// ```
/// use intervallum::proved::examples::*;
///
/// fn main() -> Result<(), std::boxed::Box<dyn std::error::Error>> {
///     let alloc = Global;
///     let (a, b) = ([Interval::new(1, 5)], [Interval::new(4, 9)]);
///     let mut runs = Vec::with_capacity(alloc, 2)?;
///     merges::symmetric_difference(&a, &b, &mut runs);
///     assert!(runs.as_slice() == [Interval::new(1, 3), Interval::new(6, 9)]);
///     Ok(())
/// }
/// ```
#[inline(never)]
///
/// # Proved
///
/// The sink then holds the runs of exactly the numbers that are in either list and not in both, at most as many as the two have together.
///
/// ```text
/// requires first { IsRunListIn R.Bound.whole (map R.pair a.now) }
/// requires second { IsRunListIn R.Bound.whole (map R.pair b.now) }
/// requires empty { S.begins out.old out.old [] }
/// requires counted { length a.now + length b.now < 2 ^ 64 }
/// requires room { S.count out.old + (length a.now + length b.now) ≤ S.room out.old }
/// ensures { (L : List (ℤ × ℤ)) × IsMerged (S.holds out.old out.new) (SymmetricDifference (Covers (map R.pair a.now)) (Covers (map R.pair b.now)))
///     (length a.now + length b.now) L }
/// ```
///
/// Words: [`IsRunListIn`](crate::definitions#IsRunListIn), [`IsMerged`](crate::definitions#IsMerged), [`SymmetricDifference`](crate::definitions#SymmetricDifference), [`Covers`](crate::definitions#Covers).
pub fn symmetric_difference<R: Pair, S: Sink<R>>(a: &[R], b: &[R], out: &mut S) {
    let (mut i, mut j, mut count) = (0, 0, 0);
    // all below it is done
    let mut from = R::Bound::min_value();
    // where the last run starts, and whether the next one goes on with it
    let mut start = from;
    let mut is_joined = false;
    'walk: while i < a.len() && j < b.len() {
        let (run, other) = (a[i], b[j]);
        let (u, v) = (run.upper(), other.upper());
        let x = run.lower().max(from);
        let y = other.lower().max(from);
        let upper = select_unpredictable(x <= y, u, v);
        let next = x.max(y);
        let is_filled = x != y;
        start = select_unpredictable(is_joined, start, x.min(y));
        let end = upper.min(next.sub_in_range(one_if(is_filled)));
        count -= usize::from(is_joined);
        out.put_if(count, is_filled, R::of(start, end));
        count += usize::from(is_filled);
        let is_left = u != v;
        i += usize::from(u <= v);
        j += usize::from(v <= u);
        from = u.min(v).add_in_range(one_if(is_left));
        is_joined = is_left & (next == from);
    }
    out.cut(count);
    let Some((head, more)) = left_of(a, i, b, j).split_first() else {
        return;
    };
    let lower = select_unpredictable(is_joined, start, head.lower().max(from));
    out.push_over(is_joined, R::of(lower, head.upper()));
    append(out, more);
}

/// The pairs that are left of one of two lists, of which the other has none left.
fn left_of<'a, R: Pair>(a: &'a [R], i: usize, b: &'a [R], j: usize) -> &'a [R] {
    if i < a.len() { &a[i..] } else { &b[j..] }
}

/// Adds runs, one by one.
fn append<R: Pair, S: Sink<R>>(out: &mut S, runs: &[R]) {
    for run in runs {
        out.push(*run);
    }
}

/// The pairs at two places of two lists, once one of the places has advanced, from those that stand
/// there before: both next pairs are read before it is known which place advances.
fn next_heads<R: Pair>(
    a: &[R],
    i: usize,
    b: &[R],
    j: usize,
    heads: (R, R),
    ends_first: bool,
) -> Option<(R, R)> {
    let (run, other) = heads;
    if i + 1 < a.len() && j + 1 < b.len() {
        let next = select_unpredictable(ends_first, a[i + 1], run);
        let more = select_unpredictable(ends_first, other, b[j + 1]);
        return Some((next, more));
    }
    pair_at(a, i + usize::from(ends_first)).zip(pair_at(b, j + usize::from(!ends_first)))
}

/// The part of a run above another one that ends below its end.
fn above<R: Pair>(run: R, other: R) -> R {
    let next = other.upper().add_in_range(R::Bound::one());
    R::of(run.lower().max(next), run.upper())
}

/// Adds the part of a run below the start of another one, if there is any.
fn push_below<R: Pair, S: Sink<R>>(out: &mut S, run: R, other: R) {
    let (start, next) = (run.lower(), other.lower());
    if next <= start {
        return;
    }
    let end = run.upper().min(next.sub_in_range(R::Bound::one()));
    out.push(R::of(start, end));
}

/// Adds the numbers of the range below a run, if there are any.
fn push_under<R: Pair, S: Sink<R>>(out: &mut S, run: R) {
    let (low, start) = (R::Bound::min_value(), run.lower());
    if start <= low {
        return;
    }
    out.push(R::of(low, start.sub_in_range(R::Bound::one())));
}

/// Adds the numbers of the range above a number, if there are any.
fn push_past<R: Pair, S: Sink<R>>(out: &mut S, end: R::Bound) {
    let high = R::Bound::max_value();
    if high <= end {
        return;
    }
    out.push(R::of(end.add_in_range(R::Bound::one()), high));
}

/// Returns one if a condition holds, and zero if not. `O(1)`.
///
/// ```
/// use intervallum::proved::examples::*;
///
/// fn main() -> Result<(), std::boxed::Box<dyn std::error::Error>> {
///     let alloc = Global;
///     assert!(merges::one_if::<u8>(true) == 1 && merges::one_if::<u8>(false) == 0);
///     Ok(())
/// }
/// ```
///
/// # Proved
///
/// The result is 1 if the condition holds, and 0 if not.
///
/// ```text
/// ensures { B.value result ≡ pos (from_bool condition) }
/// ```
pub fn one_if<B: Width>(condition: bool) -> B {
    select_unpredictable(condition, B::one(), B::zero())
}
