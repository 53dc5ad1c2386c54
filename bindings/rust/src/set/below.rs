//! The proved set below each set, and sets of either kind as operands.
use super::conditions::{contract, memory};
use super::making::outside;
use super::{IntervalSet, PagedSet};
use crate::proved::ivl_paged::PagedSet as ProvedPagedSet;
use crate::proved::ops::{
    Bounded, Cardinality, Complement, Difference, Intersection, IsEmpty, Overlap, Subset, SymmetricDifference, Union,
};
use crate::proved::{AllocError, Global, Interval, IntervalSet as ProvedIntervalSet, width::Width};
use alloc::vec::Vec;
use core::ops::Deref;

/// A proved set that is lent. It dereferences to the set.
///
/// A set that was empty from the start has none, so that it can be made in a constant: then the empty set is made for the
/// question, without an allocation.
pub struct Lent<'a, S>(Place<'a, S>);

enum Place<'a, S> {
    There(&'a S),
    Made(S),
}

impl<S> Deref for Lent<'_, S> {
    type Target = S;

    #[inline]
    fn deref(&self) -> &S {
        match &self.0 {
            Place::There(set) => set,
            Place::Made(set) => set,
        }
    }
}

/// An operation on two sets.
#[derive(Clone, Copy)]
pub(super) enum Operation {
    Union,
    Intersection,
    Difference,
    SymmetricDifference,
}

/// Does an operation by the proved calls of its name.
macro_rules! by_name {
    ($op:expr, $set:expr, $other:expr) => {
        match $op {
            Operation::Union => $set.union($other),
            Operation::Intersection => $set.intersection($other),
            Operation::Difference => $set.difference($other),
            Operation::SymmetricDifference => $set.symmetric_difference($other),
        }
    };
}

/// What both kinds of proved sets have.
pub(super) trait Proved<T: Width>: Sized {
    /// The empty set.
    fn nothing() -> Self;

    /// The set with the members of a list of runs.
    fn of_list(list: ProvedIntervalSet<T>) -> Result<Self, AllocError>;

    /// The set of the numbers of an interval.
    fn of_interval(interval: Interval<T>) -> Result<Self, AllocError>;

    /// What an operation makes of the set and another one.
    fn combined(&self, other: &impl Operand<T>, op: Operation) -> Result<Self, AllocError>;

    /// Puts what an operation makes of the set and another one in its place.
    fn change(&mut self, other: &impl Operand<T>, op: Operation) -> Result<(), AllocError> {
        *self = self.combined(other, op)?;
        Ok(())
    }

    /// The numbers within the limits that are not members.
    fn others(&self) -> Result<Self, AllocError>;

    /// Adds an interval. Returns true exactly when the set has changed.
    fn add(&mut self, interval: Interval<T>) -> Result<bool, AllocError>;

    /// Removes an interval. Returns true exactly when the set has changed.
    fn cut(&mut self, interval: Interval<T>) -> Result<bool, AllocError>;

    /// Keeps the runs for whose bounds a function returns true.
    fn keep_runs(&mut self, keep: impl FnMut(T, T) -> bool) -> Result<(), AllocError>;
}

impl<T: Width> Proved<T> for ProvedIntervalSet<T> {
    fn nothing() -> Self {
        ProvedIntervalSet::empty(Global)
    }

    fn of_list(list: ProvedIntervalSet<T>) -> Result<Self, AllocError> {
        Ok(list)
    }

    fn of_interval(interval: Interval<T>) -> Result<Self, AllocError> {
        ProvedIntervalSet::of(Global, interval)
    }

    fn combined(&self, other: &impl Operand<T>, op: Operation) -> Result<Self, AllocError> {
        by_name!(op, self, &*other.list())
    }

    fn others(&self) -> Result<Self, AllocError> {
        self.complement()
    }

    // the size of a list is at hand
    fn add(&mut self, interval: Interval<T>) -> Result<bool, AllocError> {
        let size = self.size();
        self.insert_interval(interval)?;
        Ok(self.size() != size)
    }

    fn cut(&mut self, interval: Interval<T>) -> Result<bool, AllocError> {
        let size = self.size();
        self.remove_interval(interval)?;
        Ok(self.size() != size)
    }

    fn keep_runs(&mut self, mut keep: impl FnMut(T, T) -> bool) -> Result<(), AllocError> {
        let kept: Vec<_> = self.runs().iter().copied().filter(|run| keep(run.lower(), run.upper())).collect();
        *self = ProvedIntervalSet::from_runs(kept.into());
        Ok(())
    }
}

impl<T: Width> Proved<T> for ProvedPagedSet<T> {
    fn nothing() -> Self {
        ProvedPagedSet::new(Global)
    }

    fn of_list(list: ProvedIntervalSet<T>) -> Result<Self, AllocError> {
        ProvedPagedSet::of_set(&list)
    }

    fn of_interval(interval: Interval<T>) -> Result<Self, AllocError> {
        let mut set = Self::nothing();
        set.insert_interval(interval)?;
        Ok(set)
    }

    fn combined(&self, other: &impl Operand<T>, op: Operation) -> Result<Self, AllocError> {
        match other.paged() {
            Some(other) => by_name!(op, self, other),
            None => by_name!(op, self, &*other.list()),
        }
    }

    // in place, if the other set has far fewer runs
    fn change(&mut self, other: &impl Operand<T>, op: Operation) -> Result<(), AllocError> {
        match (op, other.paged()) {
            (Operation::Union, Some(pages)) => self.union_with(pages),
            (Operation::Union, None) => self.union_with_list(&other.list()),
            (Operation::Intersection, Some(pages)) => self.intersect_with(pages),
            (Operation::Intersection, None) => self.intersect_with_list(&other.list()),
            (Operation::Difference, Some(pages)) => self.difference_with(pages),
            (Operation::Difference, None) => self.difference_with_list(&other.list()),
            (Operation::SymmetricDifference, _) => {
                *self = self.combined(other, op)?;
                Ok(())
            }
        }
    }

    fn others(&self) -> Result<Self, AllocError> {
        self.complement()
    }

    fn add(&mut self, interval: Interval<T>) -> Result<bool, AllocError> {
        let is_new = !self.includes(&interval);
        if is_new {
            self.insert_interval(interval)?;
        }
        Ok(is_new)
    }

    fn cut(&mut self, interval: Interval<T>) -> Result<bool, AllocError> {
        let had_some = self.overlap(&interval);
        if had_some {
            self.remove_interval(interval)?;
        }
        Ok(had_some)
    }

    fn keep_runs(&mut self, keep: impl FnMut(T, T) -> bool) -> Result<(), AllocError> {
        self.retain(keep)
    }
}

/// A set of either kind, as the other operand of a call: an [`IntervalSet`] or a [`PagedSet`].
pub trait AnySet<T: Width>: Operand<T> {}

/// What a call needs of its other operand.
pub trait Operand<T: Width> {
    /// Returns the runs as a list, which of a paged set is a copy.
    fn list(&self) -> Lent<'_, ProvedIntervalSet<T>>;

    /// Returns the runs as a list, if they stand in one.
    fn listed(&self) -> Option<&ProvedIntervalSet<T>>;

    /// Returns the proved set, if its runs stand in pages.
    fn paged(&self) -> Option<&ProvedPagedSet<T>>;

    /// Returns the number of runs.
    fn run_count(&self) -> usize;

    /// Returns true if some run passes a test, which is asked of one after another until one does.
    fn any_run(&self, test: impl FnMut(&Interval<T>) -> bool) -> bool;

    /// Returns true exactly when each number of an interval is a member.
    fn has_all(&self, interval: &Interval<T>) -> bool;

    /// Returns true exactly when some number of an interval is a member.
    fn has_some(&self, interval: &Interval<T>) -> bool;
}

/// The proved set that an operand has. A set that was empty from the start has none.
enum Kind<'a, T: Width> {
    List(&'a ProvedIntervalSet<T>),
    Pages(&'a ProvedPagedSet<T>),
    Empty,
}

fn kind_of<T: Width>(set: &impl Operand<T>) -> Kind<'_, T> {
    match (set.listed(), set.paged()) {
        (Some(list), _) => Kind::List(list),
        (_, Some(pages)) => Kind::Pages(pages),
        _ => Kind::Empty,
    }
}

/// Returns true exactly when each member of the first set is one of the second.
pub(super) fn is_within<T: Width>(a: &impl Operand<T>, b: &impl Operand<T>) -> bool {
    match (kind_of(a), kind_of(b)) {
        (Kind::List(a), Kind::List(b)) => a.is_subset(b),
        (Kind::List(a), Kind::Pages(b)) => b.is_superset_of_list(a),
        (Kind::Pages(a), Kind::List(b)) => a.is_subset_of_list(b),
        (Kind::Pages(a), Kind::Pages(b)) => a.is_subset(b),
        (Kind::Empty, _) => true,
        (_, Kind::Empty) => a.run_count() == 0,
    }
}

/// Returns true exactly when the sets have a common member.
pub(super) fn have_common<T: Width>(a: &impl Operand<T>, b: &impl Operand<T>) -> bool {
    match (kind_of(a), kind_of(b)) {
        (Kind::List(a), Kind::List(b)) => a.overlap(b),
        (Kind::List(a), Kind::Pages(b)) => b.overlap(a),
        (Kind::Pages(a), Kind::List(b)) => a.overlap(b),
        (Kind::Pages(a), Kind::Pages(b)) => a.overlap(b),
        (Kind::Empty, _) | (_, Kind::Empty) => false,
    }
}

impl<T: Width> Operand<T> for IntervalSet<T> {
    fn list(&self) -> Lent<'_, ProvedIntervalSet<T>> {
        self.as_proved()
    }

    fn listed(&self) -> Option<&ProvedIntervalSet<T>> {
        self.0.as_ref()
    }

    fn paged(&self) -> Option<&ProvedPagedSet<T>> {
        None
    }

    fn run_count(&self) -> usize {
        self.interval_count()
    }

    fn any_run(&self, test: impl FnMut(&Interval<T>) -> bool) -> bool {
        self.intervals().iter().any(test)
    }

    fn has_all(&self, interval: &Interval<T>) -> bool {
        self.0.as_ref().map_or_else(|| interval.is_empty(), |set| set.includes(interval))
    }

    fn has_some(&self, interval: &Interval<T>) -> bool {
        self.0.as_ref().is_some_and(|set| set.overlap(interval))
    }
}

impl<T: Width> Operand<T> for PagedSet<T> {
    fn list(&self) -> Lent<'_, ProvedIntervalSet<T>> {
        Lent(Place::Made(memory(self.as_proved().to_set())))
    }

    fn listed(&self) -> Option<&ProvedIntervalSet<T>> {
        None
    }

    fn paged(&self) -> Option<&ProvedPagedSet<T>> {
        self.0.as_ref()
    }

    fn run_count(&self) -> usize {
        self.interval_count()
    }

    fn any_run(&self, mut test: impl FnMut(&Interval<T>) -> bool) -> bool {
        self.0.as_ref().is_some_and(|set| set.iter().any(|run| test(&run)))
    }

    fn has_all(&self, interval: &Interval<T>) -> bool {
        self.0.as_ref().map_or_else(|| interval.is_empty(), |set| set.includes(interval))
    }

    fn has_some(&self, interval: &Interval<T>) -> bool {
        self.0.as_ref().is_some_and(|set| set.overlap(interval))
    }
}

macro_rules! below {
    ($Set:ident over $Proved:ident) => {
        impl<T: Width> AnySet<T> for $Set<T> {}

        impl<T: Width> $Set<T> {
            /// Lends the proved set. `from` converts both ways, without a copy.
            ///
            /// ```
            #[doc = concat!("# use intervallum::", stringify!($Set), ";")]
            #[doc = concat!("let a = ", stringify!($Set), "::from([1..=2, 5..=9u8]);")]
            /// assert_eq!(a.as_proved().interval_count(), 2);
            /// ```
            #[doc = contract!(tested)]
            #[must_use]
            pub fn as_proved(&self) -> Lent<'_, $Proved<T>> {
                Lent(self.0.as_ref().map_or_else(|| Place::Made(Proved::nothing()), Place::There))
            }

            /// The proved set, to be changed.
            pub(super) fn edited(&mut self) -> &mut $Proved<T> {
                self.0.get_or_insert_with(Proved::nothing)
            }

            /// The set with the members of a list of runs.
            pub(super) fn of_list(list: Result<ProvedIntervalSet<T>, AllocError>) -> Self {
                Self(Some(memory(list.and_then(Proved::of_list))))
            }

            /// The set of the numbers of an interval.
            pub(super) fn of_interval(interval: Interval<T>) -> Self {
                Self(Some(memory(Proved::of_interval(interval))))
            }
        }

        /// Takes the set, without a copy. Its members must be within the limits: where conditions are not tested, as in release
        /// builds, a proved call whose condition does not hold may have made another.
        impl<T: Width> From<$Proved<T>> for $Set<T> {
            #[track_caller]
            fn from(set: $Proved<T>) -> Self {
                match set.first().zip(set.last()) {
                    Some((lower, upper)) if !Interval::in_range(lower, upper) => {
                        outside::<T>(stringify!($Set), "from", lower.number(), upper.number())
                    }
                    _ => Self(Some(set)),
                }
            }
        }

        impl<T: Width> From<$Set<T>> for $Proved<T> {
            fn from(set: $Set<T>) -> Self {
                set.0.unwrap_or_else(Proved::nothing)
            }
        }
    };
}

below!(IntervalSet over ProvedIntervalSet);
below!(PagedSet over ProvedPagedSet);

impl<T: Width> IntervalSet<T> {
    /// The runs.
    #[inline]
    pub(super) fn intervals(&self) -> &[Interval<T>] {
        self.0.as_ref().map_or(&[], |set| set.runs())
    }
}
