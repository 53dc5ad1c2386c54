// Written by bindings/rust/extract from crates/ivl_store/src/store/narrowed_sets.rt.
//! What narrowing leaves of a domain; `None` stands for a domain that loses no member.

#[allow(unused_imports)]
use crate::rattle::prelude::*;
use super::Constraint;
use super::by_words::narrowed_by_words;
use super::spares::Spares;
use crate::proved::intervallum::interval::Interval;
use crate::proved::intervallum::interval_set::IntervalSet;
use crate::proved::intervallum::ops::{
    Bounded, Cardinality, Contains, Intersection, IsEmpty, IsSingleton, Singleton,
};
use crate::proved::intervallum::width::Width;
use crate::proved::ivl_within::within::{Combined, pair_in_window, results_unless_all};
use crate::rattle::std::alloc::AllocError;

/// What narrowing leaves of three domains, with `None` in place of one that loses no member.
pub type LeftOfThree<B> = (
    Option<IntervalSet<B>>,
    Option<IntervalSet<B>>,
    Option<IntervalSet<B>>,
);

/// Returns what narrowing leaves at x, y and z, or `None` for a place that loses no member. A
/// variable that stands in two places has its set at the last.
pub(super) fn narrowed_sets<B: Width>(
    domains: &[IntervalSet<B>],
    c: &Constraint,
) -> Result<LeftOfThree<B>, AllocError> {
    let (x, y, z) = (&domains[c.x], &domains[c.y], &domains[c.z]);
    if c.distinct() {
        return narrowed_by_sum(x, y, z);
    }
    let left_of_x = if c.has_x_later() {
        None
    } else {
        narrowed_by(x, z, y, Combined::Difference)?
    };
    let left_of_y = if c.y == c.z {
        None
    } else {
        narrowed_by(y, z, x, Combined::Difference)?
    };
    let left_of_z = narrowed_by(z, x, y, Combined::Sum)?;
    Ok((left_of_x, left_of_y, left_of_z))
}

/// Returns the members of `x` that are a difference of a member of `z` and one of `y`, those of `y` that are one of a
/// member of `z` and one of `x`, and those of `z` that are a sum of both, or `None` in place of a set of which all
/// are. Costs what [`narrowed_by`] costs, for each of the three; where `x` or `y` is a single number, for one of them,
/// and where that makes `z` lose members, a copy of what is left; where `x` and `z` are single numbers, a look-up in `y`.
/// Sets of which the sums of `x` and `y` lie within 64 numbers, and which begin at most 2^61 from 0, are narrowed by words
/// of 64 bits: a look at each run, and one at each member of the narrower of `x` and `y`.
///
/// # Errors
///
/// Fails only if allocation fails.
///
/// ```
/// use intervallum::proved::examples::*;
///
/// fn main() -> Result<(), std::boxed::Box<dyn std::error::Error>> {
///     let alloc = Global;
///     let (x, y) = (IntervalSet::new(alloc, 0, 9)?, IntervalSet::new(alloc, 3, 3)?);
///     let z = IntervalSet::new(alloc, 5, 6)?;
///     let (left_of_x, left_of_y, left_of_z) = narrowed_by_sum(&x, &y, &z)?;
///     assert!(left_of_x == Some(IntervalSet::new(alloc, 2, 3)?));
///     assert!(left_of_y.is_none() && left_of_z.is_none());
///     Ok(())
/// }
/// ```
#[inline]
///
/// # Proved
///
/// On success, what is left: of `x` the members that are a member of `z` less one of `y`, of `y` those that are a member of `z` less one of `x`, of `z` those that are a sum of both. `None` stands in place of a set exactly when all its members are left.
///
/// ```text
/// ensures at_x { IfOk result (λ r. IsLeftOf B.whole x.now (Differences (Covers z.now) (Covers y.now)) r.0) }
/// ensures at_y { IfOk result (λ r. IsLeftOf B.whole y.now (Differences (Covers z.now) (Covers x.now)) r.1) }
/// ensures at_z { IfOk result (λ r. IsLeftOf B.whole z.now (Sums (Covers x.now) (Covers y.now)) r.2) }
/// ```
///
/// Words: [`IsLeftOf`](crate::definitions#IsLeftOf), [`Differences`](crate::definitions#Differences), [`Covers`](crate::definitions#Covers), [`Sums`](crate::definitions#Sums).
pub fn narrowed_by_sum<B: Width>(
    x: &IntervalSet<B>,
    y: &IntervalSet<B>,
    z: &IntervalSet<B>,
) -> Result<LeftOfThree<B>, AllocError> {
    let mut spares = Spares::new(x.allocator());
    narrowed_by_sum_in(x, y, z, &mut spares)
}

/// Returns what [`narrowed_by_sum`] returns, at the same cost. A set that is made by words, or that is a single run, is
/// made in the memory of a spare one, as long as there is one.
///
/// # Errors
///
/// Fails only if allocation fails.
///
/// ```
/// use intervallum::proved::examples::*;
///
/// fn main() -> Result<(), std::boxed::Box<dyn std::error::Error>> {
///     let alloc = Global;
///     let mut spares = Spares::new(alloc);
///     spares.make_room()?;
///     spares.keep(IntervalSet::new(alloc, 1, 1)?);
///     let (x, y) = (IntervalSet::new(alloc, 0, 9)?, IntervalSet::new(alloc, 3, 3)?);
///     let z = IntervalSet::new(alloc, 5, 6)?;
///     let (left_of_x, _, _) = narrowed_by_sum_in(&x, &y, &z, &mut spares)?;
///     assert!(left_of_x == Some(IntervalSet::new(alloc, 2, 3)?));
///     Ok(())
/// }
/// ```
#[inline]
///
/// # Proved
///
/// On success, what is left: of `x` the members that are a member of `z` less one of `y`, of `y` those that are a member of `z` less one of `x`, of `z` those that are a sum of both. `None` stands in place of a set exactly when all its members are left.
///
/// ```text
/// ensures at_x { IfOk result (λ r. IsLeftOf B.whole x.now (Differences (Covers z.now) (Covers y.now)) r.0) }
/// ensures at_y { IfOk result (λ r. IsLeftOf B.whole y.now (Differences (Covers z.now) (Covers x.now)) r.1) }
/// ensures at_z { IfOk result (λ r. IsLeftOf B.whole z.now (Sums (Covers x.now) (Covers y.now)) r.2) }
/// ```
///
/// Words: [`IsLeftOf`](crate::definitions#IsLeftOf), [`Differences`](crate::definitions#Differences), [`Covers`](crate::definitions#Covers), [`Sums`](crate::definitions#Sums).
pub fn narrowed_by_sum_in<B: Width>(
    x: &IntervalSet<B>,
    y: &IntervalSet<B>,
    z: &IntervalSet<B>,
    spares: &mut Spares<B>,
) -> Result<LeftOfThree<B>, AllocError> {
    if are_runs(x, y, z) {
        return narrowed_runs(x, y, z, spares);
    }
    if x.is_singleton() && z.is_singleton() {
        return narrowed_between(x, y, z, spares);
    }
    narrowed_by_words(x, y, z, spares)
}

/// Returns what narrowing leaves at x, y and z of a sum where x and z are single numbers: of y, how far z stands above x.
fn narrowed_between<B: Width>(
    x: &IntervalSet<B>,
    y: &IntervalSet<B>,
    z: &IntervalSet<B>,
    spares: &mut Spares<B>,
) -> Result<LeftOfThree<B>, AllocError> {
    x.in_whole();
    y.in_whole();
    z.in_whole();
    let distance = distance_of(x.lower(), z.lower());
    let Some(value) = member_at(y, distance) else {
        let none_of_y = nothing_of(y, spares);
        return Ok((
            Some(emptied(x, spares)),
            none_of_y,
            Some(emptied(z, spares)),
        ));
    };
    let left_of_y = narrowed_to_value(y, value, spares)?;
    Ok((None, left_of_y, None))
}

/// How far a value stands above another.
fn distance_of<B: Width>(low: B, high: B) -> i128 {
    high.number() - low.number()
}

/// Returns the set of one member in place of a set that has others too.
fn narrowed_to_value<B: Width>(
    set: &IntervalSet<B>,
    value: B,
    spares: &mut Spares<B>,
) -> Result<Option<IntervalSet<B>>, AllocError> {
    set.in_whole();
    if set.is_singleton() {
        return Ok(None);
    }
    let empty = spares.take(set.allocator());
    Ok(Some(set_of_run(empty, Interval::singleton(value))?))
}

/// The value of a number, if it is a member of a set.
fn member_at<B: Width>(set: &IntervalSet<B>, number: i128) -> Option<B> {
    set.in_whole();
    let value = B::from_number(number)?;
    if set.contains(&value) {
        Some(value)
    } else {
        None
    }
}

/// What is left of a set of which no member stays.
fn nothing_of<B: Width>(set: &IntervalSet<B>, spares: &mut Spares<B>) -> Option<IntervalSet<B>> {
    if set.is_empty() {
        return None;
    }
    Some(emptied(set, spares))
}

/// Whether each of three sets is one run, so that narrowing by bounds costs least.
fn are_runs<B: Width>(x: &IntervalSet<B>, y: &IntervalSet<B>, z: &IntervalSet<B>) -> bool {
    x.interval_count() == 1 && y.interval_count() == 1 && z.interval_count() == 1
}

/// Returns what narrowing leaves at x, y and z of a sum, of which each is one run, by their bounds.
fn narrowed_runs<B: Width>(
    x: &IntervalSet<B>,
    y: &IntervalSet<B>,
    z: &IntervalSet<B>,
    spares: &mut Spares<B>,
) -> Result<LeftOfThree<B>, AllocError> {
    let run_of_x = only_run(x);
    let run_of_y = only_run(y);
    let run_of_z = only_run(z);
    let in_x = pair_in_window(run_of_z, run_of_y, Combined::Difference, run_of_x);
    let in_y = pair_in_window(run_of_z, run_of_x, Combined::Difference, run_of_y);
    let in_z = pair_in_window(run_of_x, run_of_y, Combined::Sum, run_of_z);
    let left_of_x = narrowed_run(x, run_of_x, in_x, spares)?;
    let left_of_y = narrowed_run(y, run_of_y, in_y, spares)?;
    let left_of_z = narrowed_run(z, run_of_z, in_z, spares)?;
    Ok((left_of_x, left_of_y, left_of_z))
}

/// The run of a set that has one.
fn only_run<B: Width>(set: &IntervalSet<B>) -> Interval<B> {
    set.iter().as_slice()[0]
}

/// Returns what narrowing leaves at x, y and z of a sum, found for one after another.
pub(super) fn narrowed_one_by_one<B: Width>(
    x: &IntervalSet<B>,
    y: &IntervalSet<B>,
    z: &IntervalSet<B>,
    spares: &mut Spares<B>,
) -> Result<LeftOfThree<B>, AllocError> {
    if y.is_singleton() {
        return narrowed_by_number(x, y, z, spares);
    }
    if x.is_singleton() {
        let (left_of_y, left_of_x, left_of_z) = narrowed_by_number(y, x, z, spares)?;
        return Ok((left_of_x, left_of_y, left_of_z));
    }
    let left_of_x = narrowed_by_in(x, z, y, Combined::Difference, spares)?;
    let left_of_y = narrowed_by_in(y, z, x, Combined::Difference, spares)?;
    let left_of_z = if z.is_singleton() {
        left_of_one(z, rest_of(y, &left_of_y), spares)
    } else {
        narrowed_by_in(z, x, y, Combined::Sum, spares)?
    };
    Ok((left_of_x, left_of_y, left_of_z))
}

/// Returns what is left at x, y and z of a sum where y is a single number, by which what is left of x is moved onto
/// what is left of z.
fn narrowed_by_number<B: Width>(
    x: &IntervalSet<B>,
    y: &IntervalSet<B>,
    z: &IntervalSet<B>,
    spares: &mut Spares<B>,
) -> Result<LeftOfThree<B>, AllocError> {
    let left_of_x = narrowed_by_in(x, z, y, Combined::Difference, spares)?;
    let rest = rest_of(x, &left_of_x);
    let left_of_y = left_of_one(y, rest, spares);
    let left_of_z = left_of_moved(z, rest, y.lower())?;
    Ok((left_of_x, left_of_y, left_of_z))
}

/// The set itself, or what is left of it.
fn rest_of<'a, B: Width>(
    set: &'a IntervalSet<B>,
    left: &'a Option<IntervalSet<B>>,
) -> &'a IntervalSet<B> {
    match left {
        Some(rest) => rest,
        None => set,
    }
}

/// An empty set in place of one, in the memory of a spare set. Not inlined: it is seldom made, where a sum has no solution.
#[inline(never)]
fn emptied<B: Width>(set: &IntervalSet<B>, spares: &mut Spares<B>) -> IntervalSet<B> {
    spares.take(set.allocator())
}

/// Returns what is left of a set of one number, which stands in a sum with a member of another set: it stays exactly
/// where something is left of that one.
fn left_of_one<B: Width>(
    one: &IntervalSet<B>,
    rest: &IntervalSet<B>,
    spares: &mut Spares<B>,
) -> Option<IntervalSet<B>> {
    one.in_whole();
    if rest.is_empty() {
        return Some(emptied(one, spares));
    }
    None
}

/// Returns what is left of a set in which just the members of another one, moved by a number, stay.
fn left_of_moved<B: Width>(
    z: &IntervalSet<B>,
    rest: &IntervalSet<B>,
    by: B,
) -> Result<Option<IntervalSet<B>>, AllocError> {
    z.in_whole();
    rest.in_whole();
    // as many as before are all
    if rest.size() != z.size() {
        return Ok(Some((rest + by)?));
    }
    Ok(None)
}

/// Returns the members of `x` that are a sum, or a difference, of a member of `a` and one of `b`, or `None` if all
/// are. `O(1)` if each is a single run; else costs what [`results_unless_all`] costs, and if that finds that all
/// are, does not allocate.
///
/// # Errors
///
/// Fails only if allocation fails.
///
/// ```
/// use intervallum::proved::examples::*;
///
/// fn main() -> Result<(), std::boxed::Box<dyn std::error::Error>> {
///     let alloc = Global;
///     let x = IntervalSet::new(alloc, 0, 10)?;
///     let (a, b) = (IntervalSet::new(alloc, 5, 6)?, IntervalSet::new(alloc, 3, 4)?);
///     let left = narrowed_by(&x, &a, &b, Combined::Difference)?;
///     assert!(left == Some(IntervalSet::new(alloc, 1, 3)?));
///     Ok(())
/// }
/// ```
///
/// # Proved
///
/// On success, the members of `x` that are a sum, or with `Difference` a difference, of a member of `a` and one of `b`; `None` exactly when all are.
///
/// ```text
/// ensures { IfOk result (IsLeftOf B.whole x.now (SumsBy op (Covers a.now) (Covers b.now))) }
/// ```
///
/// Words: [`IsLeftOf`](crate::definitions#IsLeftOf), [`SumsBy`](crate::definitions#SumsBy), [`Covers`](crate::definitions#Covers).
pub fn narrowed_by<B: Width>(
    x: &IntervalSet<B>,
    a: &IntervalSet<B>,
    b: &IntervalSet<B>,
    op: Combined,
) -> Result<Option<IntervalSet<B>>, AllocError> {
    let mut spares = Spares::new(x.allocator());
    narrowed_by_in(x, a, b, op, &mut spares)
}

/// Returns what [`narrowed_by`] returns, in the memory of a spare set where each is a single run.
fn narrowed_by_in<B: Width>(
    x: &IntervalSet<B>,
    a: &IntervalSet<B>,
    b: &IntervalSet<B>,
    op: Combined,
    spares: &mut Spares<B>,
) -> Result<Option<IntervalSet<B>>, AllocError> {
    let runs = x.iter().as_slice();
    let first = a.iter().as_slice();
    let second = b.iter().as_slice();
    if runs.len() == 1 && first.len() == 1 && second.len() == 1 {
        let run = runs[0];
        let kept = pair_in_window(first[0], second[0], op, run);
        return narrowed_run(x, run, kept, spares);
    }
    let Some(left) = results_unless_all(x, a, b, op)? else {
        return Ok(None);
    };
    // a subset, so the sizes decide
    Ok(if left.size() != x.size() {
        Some(left)
    } else {
        None
    })
}

/// Returns the set of `left` in place of a set of one run, or `None` if that is the same run.
fn narrowed_run<B: Width>(
    x: &IntervalSet<B>,
    run: Interval<B>,
    left: Interval<B>,
    spares: &mut Spares<B>,
) -> Result<Option<IntervalSet<B>>, AllocError> {
    x.in_whole();
    if left == run {
        return Ok(None);
    }
    let empty = spares.take(x.allocator());
    Ok(Some(set_of_run(empty, left)?))
}

/// The set of an interval, in the memory of an empty set.
fn set_of_run<B: Width>(
    empty: IntervalSet<B>,
    run: Interval<B>,
) -> Result<IntervalSet<B>, AllocError> {
    let mut set = empty;
    if run.is_empty() {
        return Ok(set);
    }
    set.push_run(run)?;
    Ok(set)
}

/// Returns the members of `x` that are in another set, or `None` if all are. Costs an intersection.
///
/// # Errors
///
/// Fails only if allocation fails.
///
/// ```
/// use intervallum::proved::examples::*;
///
/// fn main() -> Result<(), std::boxed::Box<dyn std::error::Error>> {
///     let alloc = Global;
///     let (x, allowed) = (IntervalSet::new(alloc, 0, 9)?, IntervalSet::new(alloc, 5, 20)?);
///     assert!(narrowed_to(&x, &allowed)? == Some(IntervalSet::new(alloc, 5, 9)?));
///     Ok(())
/// }
/// ```
///
/// # Proved
///
/// On success, the members of `x` that are in `allowed`; `None` exactly when all are.
///
/// ```text
/// ensures { IfOk result (IsLeftOf B.whole x.now (Covers allowed.now)) }
/// ```
///
/// Words: [`IsLeftOf`](crate::definitions#IsLeftOf), [`Covers`](crate::definitions#Covers).
pub fn narrowed_to<B: Width>(
    x: &IntervalSet<B>,
    allowed: &IntervalSet<B>,
) -> Result<Option<IntervalSet<B>>, AllocError> {
    x.in_whole();
    let left = x.intersection(allowed)?;
    // a subset, so the sizes decide
    Ok(if left.size() != x.size() {
        Some(left)
    } else {
        None
    })
}
