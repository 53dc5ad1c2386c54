// Written by bindings/rust/extract from crates/ivl_paged/src/paged_set/walks.rt.
//! What two sets of runs have in common, each in pages or in one list.

#[allow(unused_imports)]
use crate::rattle::prelude::*;
use super::PagedSet;
use super::iter::{Runs, runs_of};
use crate::proved::intervallum::interval::Interval;
use crate::proved::intervallum::interval_set::IntervalSet;
use crate::proved::intervallum::ops::{Overlap, Subset};
use crate::proved::intervallum::width::Width;

/// How many times as many runs a set must have to be searched for each run of the other.
const FAR_MORE: usize = 16;

/// A set whose runs are read in order, or searched for those that an interval meets.
///
/// Words and laws of the contracts:
///
/// ```text
/// runs: { Self → List (ℤ × ℤ) }
/// ```
pub(super) trait Walkable<B: Width> {
    /// The runs, from the first.
    ///
    /// # Proved
    ///
    /// ```text
    /// ensures all { result ≡ runs self.now }
    /// ensures maximal { IsMaximal (runs self.now) }
    /// ```
    ///
    /// Words: [`IsMaximal`](crate::definitions#IsMaximal).
    fn walk(&self) -> Runs<'_, B>;

    /// How many runs there are.
    ///
    /// # Proved
    ///
    /// ```text
    /// ensures { result ≡ length (runs self.now) }
    /// ```
    fn run_count(&self) -> usize;

    /// Returns true exactly when a member lies in the interval.
    ///
    /// # Proved
    ///
    /// ```text
    /// ensures { IsTrue result ↔ HasSome (Intersection (Covers (runs self.now)) (IsBetween interval.now)) }
    /// ```
    ///
    /// Words: [`HasSome`](crate::definitions#HasSome), [`Intersection`](crate::definitions#Intersection), [`Covers`](crate::definitions#Covers), [`IsBetween`](crate::definitions#IsBetween).
    fn meets(&self, interval: &Interval<B>) -> bool;

    /// Returns true exactly when each number of the interval is a member.
    ///
    /// # Proved
    ///
    /// ```text
    /// ensures { IsTrue result ↔ IsSubset (IsBetween interval.now) (Covers (runs self.now)) }
    /// ```
    ///
    /// Words: [`IsSubset`](crate::definitions#IsSubset), [`IsBetween`](crate::definitions#IsBetween), [`Covers`](crate::definitions#Covers).
    fn has_all(&self, interval: &Interval<B>) -> bool;
}

/// Proved, with these words of the trait:
///
/// ```text
/// runs = { λ L. L }
/// ```
impl<B: Width> Walkable<B> for PagedSet<B> {
    fn walk(&self) -> Runs<'_, B> {
        self.iter()
    }

    fn run_count(&self) -> usize {
        self.interval_count()
    }

    fn meets(&self, interval: &Interval<B>) -> bool {
        self.overlap(interval)
    }

    fn has_all(&self, interval: &Interval<B>) -> bool {
        self.includes(interval)
    }
}

/// Proved, with these words of the trait:
///
/// ```text
/// runs = { λ L. L }
/// ```
impl<B: Width> Walkable<B> for IntervalSet<B> {
    fn walk(&self) -> Runs<'_, B> {
        self.in_whole();
        runs_of(self.runs())
    }

    fn run_count(&self) -> usize {
        self.interval_count()
    }

    fn meets(&self, interval: &Interval<B>) -> bool {
        self.overlap(interval)
    }

    fn has_all(&self, interval: &Interval<B>) -> bool {
        self.includes(interval)
    }
}

/// Whether two sets have a common member. Reads both, or searches for each run of one in the other if that
/// one has far more.
pub(super) fn have_common<B: Width, S: Walkable<B>, T: Walkable<B>>(a: &S, b: &T) -> bool {
    if a.run_count() < b.run_count() / FAR_MORE {
        return any_meets(a.walk(), b);
    }
    if b.run_count() < a.run_count() / FAR_MORE {
        return any_meets(b.walk(), a);
    }
    share_a_number(a.walk(), b.walk())
}

/// Whether each member of a set is a member of another. Reads both, or searches for each run in the other
/// if that one has far more.
pub(super) fn is_included<B: Width, S: Walkable<B>, T: Walkable<B>>(a: &S, b: &T) -> bool {
    if a.run_count() < b.run_count() / FAR_MORE {
        return all_are_in(a.walk(), b);
    }
    are_within(a.walk(), b.walk())
}

/// Whether a set has a member in one of some runs.
fn any_meets<B: Width, S: Walkable<B>>(mut few: Runs<'_, B>, many: &S) -> bool {
    'runs: while let Some(run) = few.next() {
        if many.meets(&run) {
            return true;
        }
    }
    false
}

/// Whether a set has all numbers of some runs.
fn all_are_in<B: Width, S: Walkable<B>>(mut few: Runs<'_, B>, many: &S) -> bool {
    'runs: while let Some(run) = few.next() {
        if !many.has_all(&run) {
            return false;
        }
    }
    true
}

/// Whether some number is in runs of both lists.
fn share_a_number<B: Width>(mut a: Runs<'_, B>, mut b: Runs<'_, B>) -> bool {
    let mut other = None;
    'runs: while let Some(run) = a.next() {
        let Some(next) = read_to(&mut b, other, run.lower_bound()) else {
            return false;
        };
        if next.lower_bound() <= run.upper_bound() {
            return true;
        }
        other = Some(next);
    }
    false
}

/// Whether each number in runs of one list is in runs of the other.
fn are_within<B: Width>(mut a: Runs<'_, B>, mut b: Runs<'_, B>) -> bool {
    let mut other = None;
    'runs: while let Some(run) = a.next() {
        let Some(next) = read_to(&mut b, other, run.lower_bound()) else {
            return false;
        };
        if !run.is_subset(&next) {
            return false;
        }
        other = Some(next);
    }
    true
}

/// The first run that ends at a value or above: the one in hand, if there is one, or else one of those that
/// are left, of which the runs up to it are taken.
fn read_to<B: Width>(
    left: &mut Runs<'_, B>,
    in_hand: Option<Interval<B>>,
    value: B,
) -> Option<Interval<B>> {
    if ends_from(in_hand, value) {
        return in_hand;
    }
    next_to(left, value)
}

/// Whether there is a run in hand that ends at a value or above.
fn ends_from<B: Width>(in_hand: Option<Interval<B>>, value: B) -> bool {
    match in_hand {
        Some(run) => value <= run.upper_bound(),
        None => false,
    }
}

/// The first run of those that are left which ends at a value or above. The runs up to it are taken.
fn next_to<B: Width>(left: &mut Runs<'_, B>, value: B) -> Option<Interval<B>> {
    'runs: while let Some(run) = left.next() {
        if value <= run.upper_bound() {
            return Some(run);
        }
    }
    None
}
