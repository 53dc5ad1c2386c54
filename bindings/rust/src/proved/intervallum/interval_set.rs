// Written by bindings/rust/extract from crates/intervallum/src/interval_set.rt.
//! A set of integers as a list of runs.

#[allow(unused_imports)]
use crate::rattle::prelude::*;

mod arithmetic;
mod best_fit;
mod bounds;
pub(crate) mod builder;
mod clone;
mod collect;
mod contains;
mod conversions;
mod disjoint;
mod edits;
mod first_fit;
mod fits;
mod from_runs;
mod inclusion;
mod interval_operands;
mod iter;
mod lattice;
mod lopsided;
mod many;
mod members;
mod members_within;
mod neighbours;
mod operators;
mod push_run;
mod ranges;
mod rank;
pub(crate) mod run_lists;
mod runs_within;
mod set_operands;
mod shrinks;
mod sizes;
mod split_off;
mod text;
mod value_operands;
mod value_overlap;

use crate::proved::intervallum::interval::Interval;
use crate::proved::intervallum::ops::{Cardinality, Collection, IntervalKind, IsEmpty, Range};
use crate::proved::intervallum::width::{SizeNumber, Width};
pub use conversions::{IntoRuns, ToIntervalSet};
pub use members::Members;
use crate::rattle::std::alloc::{AllocError, Global};

/// A set of integers. A contract sees the list of its runs, each a pair of numbers.
///
/// The runs are non-empty intervals within the type's range, in ascending order, with at least one
/// number missing between neighbours. The set also stores the number of its members.
///
/// If an allocation fails, borrowed operands are unchanged, and so is a set that was to be changed.
///
/// Unless its docs say otherwise, a call that returns a set reserves memory for the most runs that
/// the result may have, and shrinks the result if less than half, rounded down, is used, and more
/// than 16 runs would fit beside it. If shrinking fails, the result keeps its capacity.
///
/// ```
/// use intervallum::proved::examples::*;
///
/// fn main() -> Result<(), std::boxed::Box<dyn std::error::Error>> {
///     let alloc = Global;
///     let hours: IntervalSet<u8> = [(12, 13), (8, 11)].to_interval_set(alloc)?;
///     assert!(hours == IntervalSet::new(alloc, 8, 13)?);
///     Ok(())
/// }
/// ```
///
/// The original derives `Clone`; this set has `try_clone`. The `iter_mut` of the original, which
/// can make runs overlap, is left out.
#[derive(Debug)]
pub struct IntervalSet<B: Width> {
    intervals: Vec<Interval<B>>,
    size: B::Output,
}

impl<B: Width> IntervalSet<B> {
    /// Returns the empty set. `O(1)`. Does not allocate.
    ///
    /// ```
    /// use intervallum::proved::examples::*;
    ///
    /// fn main() -> Result<(), std::boxed::Box<dyn std::error::Error>> {
    ///     let alloc = Global;
    ///     assert!(IntervalSet::<i32>::empty(alloc).is_empty());
    ///     Ok(())
    /// }
    /// ```
    ///
    /// # Proved
    ///
    /// The result is the empty set.
    ///
    /// ```text
    /// ensures { result ≡ [] }
    /// ```
    pub fn empty(alloc: Global) -> Self {
        IntervalSet {
            intervals: Vec::new(alloc),
            size: <B::Output as SizeNumber>::zero(),
        }
    }

    /// Returns the set of the numbers from `lb` to `ub`, both included. The caller must ensure
    /// `Interval::in_range(lb, ub)` and `lb <= ub`. `O(1)`. Allocates one run. Fails only if
    /// allocation fails.
    ///
    /// ```
    /// use intervallum::proved::examples::*;
    ///
    /// fn main() -> Result<(), std::boxed::Box<dyn std::error::Error>> {
    ///     let alloc = Global;
    ///     let a = IntervalSet::new(alloc, 1, 2)?;
    ///     assert!(a.contains(&1) && a.contains(&2) && !a.contains(&3));
    ///     Ok(())
    /// }
    /// ```
    ///
    /// # Proved
    ///
    /// On success, the result is the one run from `lb` to `ub`.
    ///
    /// ```text
    /// requires in_range { IsInRange B.whole (B.value lb, B.value ub) }
    /// requires in_order { B.value lb ≤ℤ B.value ub }
    /// ensures { IfOk result (λ L. L ≡ (B.value lb, B.value ub) ∷ []) }
    /// ```
    ///
    /// Words: [`IsInRange`](crate::definitions#IsInRange).
    #[cfg_attr(debug_assertions, track_caller)]
    pub fn new(alloc: Global, lb: B, ub: B) -> Result<Self, AllocError> {
        debug_assert!({ #[allow(unused_imports)] use crate::proved::ivl_interval::ops::*; Interval::in_range(lb, ub) && lb <= ub }, "{}", "the condition of `new` is broken: Interval::in_range(lb, ub) && lb <= ub");
        let run = Interval::new(lb, ub);
        let mut intervals = Vec::with_capacity(alloc, 1)?;
        intervals.push_reserved(run);
        Ok(IntervalSet {
            intervals,
            size: run.size(),
        })
    }

    /// Returns the number of runs. `O(1)`. Does not allocate.
    ///
    /// ```
    /// use intervallum::proved::examples::*;
    ///
    /// fn main() -> Result<(), std::boxed::Box<dyn std::error::Error>> {
    ///     let alloc = Global;
    ///     let a: IntervalSet<i32> = [(1, 2), (5, 6)].to_interval_set(alloc)?;
    ///     assert_eq!(a.interval_count(), 2);
    ///     Ok(())
    /// }
    /// ```
    ///
    /// # Proved
    ///
    /// The result is the number of runs, which are ascending, lie in the range, and neither overlap nor touch.
    ///
    /// ```text
    /// ensures count { result ≡ length self.now }
    /// ensures runs { IsRunListIn B.whole self.now }
    /// ```
    ///
    /// Words: [`IsRunListIn`](crate::definitions#IsRunListIn).
    pub fn interval_count(&self) -> usize {
        self.intervals.len()
    }

    /// Returns a double-ended iterator over the runs, in ascending order. `O(1)`. Does not
    /// allocate.
    ///
    /// ```
    /// use intervallum::proved::examples::*;
    ///
    /// fn main() -> Result<(), std::boxed::Box<dyn std::error::Error>> {
    ///     let alloc = Global;
    ///     let a: IntervalSet<i32> = [(1, 2), (5, 6)].to_interval_set(alloc)?;
    ///     let mut runs = a.iter();
    ///     assert!(runs.next() == Some(&Interval::new(1, 2)));
    ///     assert!(runs.next_back() == Some(&Interval::new(5, 6)));
    ///     Ok(())
    /// }
    /// ```
    ///
    /// # Proved
    ///
    /// The iterator yields the runs in order; they are ascending, not empty, lie in the range, and neither overlap nor touch.
    ///
    /// ```text
    /// ensures rest { result.rest.now ≡ self.now }
    /// ensures runs { IsRunListIn B.whole self.now }
    /// ensures filled { All (λ run. HasSome (IsBetween run)) self.now }
    /// ```
    ///
    /// Words: [`IsRunListIn`](crate::definitions#IsRunListIn), [`HasSome`](crate::definitions#HasSome), [`IsBetween`](crate::definitions#IsBetween).
    pub fn iter(&self) -> crate::rattle::std::slice::Iter<'_, Interval<B>> {
        self.intervals.iter()
    }
}

impl<B: Width> IntervalKind for IntervalSet<B> {}

/// Proved, with these words of the trait:
///
/// ```text
/// members = { Covers }
/// number = { B.value }
/// ```
///
/// Words: [`Covers`](crate::definitions#Covers).
impl<B: Width> Collection for IntervalSet<B> {
    type Item = B;
}

/// Proved, with these words of the trait:
///
/// ```text
/// members = { Covers }
/// size_number = { B.Output.size }
/// ```
///
/// Words: [`Covers`](crate::definitions#Covers).
impl<B: Width> Cardinality for IntervalSet<B> {
    type Size = B::Output;

    /// Returns the number of members, which the set stores. `O(1)`. Never overflows. Does not
    /// allocate.
    ///
    /// ```
    /// use intervallum::proved::examples::*;
    ///
    /// fn main() -> Result<(), std::boxed::Box<dyn std::error::Error>> {
    ///     let alloc = Global;
    ///     let a: IntervalSet<i32> = [(1, 2), (5, 6)].to_interval_set(alloc)?;
    ///     assert_eq!(a.size(), 4u32);
    ///     Ok(())
    /// }
    /// ```
    ///
    /// # Proved
    ///
    /// What [`Cardinality::size`] says, by the words of the type.
    fn size(&self) -> B::Output {
        self.size
    }
}

/// Proved, with these words of the trait:
///
/// ```text
/// members = { Covers }
/// ```
///
/// Words: [`Covers`](crate::definitions#Covers).
impl<B: Width> IsEmpty for IntervalSet<B> {
    /// Returns true exactly when the set has no members. `O(1)`. Does not allocate.
    ///
    /// ```
    /// use intervallum::proved::examples::*;
    ///
    /// fn main() -> Result<(), std::boxed::Box<dyn std::error::Error>> {
    ///     let alloc = Global;
    ///     let a = IntervalSet::new(alloc, 1, 2)?;
    ///     assert!(!a.is_empty() && IntervalSet::<i32>::empty(alloc).is_empty());
    ///     Ok(())
    /// }
    /// ```
    ///
    /// # Proved
    ///
    /// True exactly when there is no member, and so no run; after false there is a member.
    ///
    /// ```text
    /// ensures members { IsTrue result ↔ HasNone (Covers self.now) }
    /// ensures filled { ¬ (IsTrue result) → HasSome (Covers self.now) }
    /// ensures none { IsTrue result ↔ (self.now ≡ []) }
    /// ```
    ///
    /// Words: [`HasNone`](crate::definitions#HasNone), [`Covers`](crate::definitions#Covers), [`HasSome`](crate::definitions#HasSome).
    fn is_empty(&self) -> bool {
        self.intervals.is_empty()
    }
}

/// Proved, with these words of the trait:
///
/// ```text
/// eq = { same_runs }
/// ```
///
/// Words: [`same_runs`](crate::definitions#same_runs).
impl<B: Width> PartialEq for IntervalSet<B> {
    /// Returns true exactly when both sets have the same members. `O(n)`, or `O(1)` if the sizes
    /// differ. Does not allocate.
    ///
    /// ```
    /// use intervallum::proved::examples::*;
    ///
    /// fn main() -> Result<(), std::boxed::Box<dyn std::error::Error>> {
    ///     let alloc = Global;
    ///     let a: IntervalSet<i32> = [(3, 4), (1, 2)].to_interval_set(alloc)?;
    ///     assert!(a == IntervalSet::new(alloc, 1, 4)?);
    ///     Ok(())
    /// }
    /// ```
    ///
    /// # Proved
    ///
    /// True exactly when both sets have the same members.
    ///
    /// ```text
    /// ensures value { result ≡ same_runs self.now other.now }
    /// ensures members { IsTrue result ↔ SameMembers (Covers self.now) (Covers other.now) }
    /// ```
    ///
    /// Words: [`same_runs`](crate::definitions#same_runs), [`SameMembers`](crate::definitions#SameMembers), [`Covers`](crate::definitions#Covers).
    fn eq(&self, other: &IntervalSet<B>) -> bool {
        self.size == other.size && run_lists::are_the_same(&self.intervals, &other.intervals)
    }
}

impl<B: Width> Eq for IntervalSet<B> {
}
