// Written by bindings/rust/extract from crates/ivl_interval/src/interval/sets.rt.
//! Intervals as sets: intersection, difference, hull and inclusion.

#[allow(unused_imports)]
use crate::rattle::prelude::*;
use crate::proved::ivl_interval::interval::Interval;
use crate::proved::ivl_interval::kleene::SKleene;
use crate::proved::ivl_interval::ops::{
    Contains, Difference, Disjoint, Empty, Entailment, Hull, Intersection, IsEmpty, Join, Meet,
    Overlap, ProperSubset, Range, Subset,
};
use crate::proved::ivl_interval::width::Width;

/// Proved, with these words of the trait:
///
/// ```text
/// members = { IsBetween }
/// other_members = { IsBetween }
/// ```
///
/// Words: [`IsBetween`](crate::definitions#IsBetween).
impl<B: Width> Disjoint<Interval<B>> for Interval<B> {
    /// Returns true exactly when no number is a member of both.
    ///
    /// ```
    /// use intervallum::proved::examples::*;
    ///
    /// fn main() -> Result<(), std::boxed::Box<dyn std::error::Error>> {
    ///     let alloc = Global;
    ///     assert!(!Interval::new(1i32, 5).is_disjoint(&Interval::new(5, 9)));
    ///     Ok(())
    /// }
    /// ```
    ///
    /// # Proved
    ///
    /// What [`Disjoint::is_disjoint`] says, by the words of the type.
    fn is_disjoint(&self, other: &Interval<B>) -> bool {
        self.intersection(other).is_empty()
    }
}

/// Proved, with these words of the trait:
///
/// ```text
/// members = { IsBetween }
/// other_members = { IsBetween }
/// ```
///
/// Words: [`IsBetween`](crate::definitions#IsBetween).
impl<B: Width> Overlap<Interval<B>> for Interval<B> {
    /// Returns true exactly when some number is a member of both.
    ///
    /// ```
    /// use intervallum::proved::examples::*;
    ///
    /// fn main() -> Result<(), std::boxed::Box<dyn std::error::Error>> {
    ///     let alloc = Global;
    ///     assert!(!Interval::new(1i32, 2).overlap(&Interval::new(3, 4)));
    ///     Ok(())
    /// }
    /// ```
    ///
    /// # Proved
    ///
    /// What [`Overlap::overlap`] says, by the words of the type.
    fn overlap(&self, other: &Interval<B>) -> bool {
        !self.intersection(other).is_empty()
    }
}

/// Proved, with these words of the trait:
///
/// ```text
/// members = { IsBetween }
/// other_members = { IsBetween }
/// answers = { λ p S. SameMembers (IsBetween p) S }
/// ```
///
/// Words: [`IsBetween`](crate::definitions#IsBetween), [`SameMembers`](crate::definitions#SameMembers).
impl<B: Width> Intersection<Interval<B>> for Interval<B> {
    type Output = Interval<B>;

    /// Returns the numbers that are members of both.
    ///
    /// ```
    /// use intervallum::proved::examples::*;
    ///
    /// fn main() -> Result<(), std::boxed::Box<dyn std::error::Error>> {
    ///     let alloc = Global;
    ///     let a = Interval::new(1i32, 3);
    ///     assert!(a.intersection(&Interval::new(4, 5)).is_empty());
    ///     Ok(())
    /// }
    /// ```
    ///
    /// # Proved
    ///
    /// What [`Intersection::intersection`] says, by the words of the type.
    fn intersection(&self, other: &Interval<B>) -> Interval<B> {
        Interval {
            lb: self.lb.max(other.lb),
            ub: self.ub.min(other.ub),
        }
    }
}

/// Proved, with these words of the trait:
///
/// ```text
/// members = { IsBetween }
/// other_members = { IsBetween }
/// answers = { IsHullOf }
/// ```
///
/// Words: [`IsBetween`](crate::definitions#IsBetween), [`IsHullOf`](crate::definitions#IsHullOf).
impl<B: Width> Difference<Interval<B>> for Interval<B> {
    type Output = Interval<B>;

    /// Returns the least interval that holds the members that are not in `other`. So a hole in the
    /// middle is not cut out: `[0..9]` without `[4..5]` is `[0..9]`.
    ///
    /// ```
    /// use intervallum::proved::examples::*;
    ///
    /// fn main() -> Result<(), std::boxed::Box<dyn std::error::Error>> {
    ///     let alloc = Global;
    ///     let a = Interval::new(0u8, 9);
    ///     assert_eq!(a.difference(&Interval::new(0, 5)), Interval::new(6, 9));
    ///     assert_eq!(a.difference(&Interval::new(4, 5)), a);
    ///     Ok(())
    /// }
    /// ```
    ///
    /// # Proved
    ///
    /// What [`Difference::difference`] says, by the words of the type.
    fn difference(&self, other: &Interval<B>) -> Interval<B> {
        if self.is_empty() {
            return *self;
        }
        cut_away(self, other)
    }
}

/// The least interval that holds the members of the first that are not in the other.
fn cut_away<B: Width>(first: &Interval<B>, other: &Interval<B>) -> Interval<B> {
    let at_lower = other.contains(&first.lb);
    let at_upper = other.contains(&first.ub);
    if at_lower {
        if at_upper {
            return Interval::empty();
        }
        // `other` ends below the upper bound, so the next number is in the range
        return Interval::new(successor(other.ub), first.ub);
    }
    if at_upper {
        return Interval::new(first.lb, predecessor(other.lb));
    }
    *first
}

/// The value of the next number.
pub(super) fn successor<B: Width>(x: B) -> B {
    x.add_in_range(B::one())
}

/// The value of the number before.
pub(super) fn predecessor<B: Width>(x: B) -> B {
    x.sub_in_range(B::one())
}

/// Proved, with these words of the trait:
///
/// ```text
/// members = { IsBetween }
/// other_members = { IsBetween }
/// can_join = { λ _ _. ⊤ }
/// answers = { IsHullOf }
/// ```
///
/// Words: [`IsBetween`](crate::definitions#IsBetween), [`IsHullOf`](crate::definitions#IsHullOf).
impl<B: Width> Hull<Interval<B>> for Interval<B> {
    type Output = Interval<B>;

    /// Returns the least interval that holds the members of both.
    ///
    /// ```
    /// use intervallum::proved::examples::*;
    ///
    /// fn main() -> Result<(), std::boxed::Box<dyn std::error::Error>> {
    ///     let alloc = Global;
    ///     let a = Interval::new(1i32, 2);
    ///     assert_eq!(a.hull(&Interval::new(8, 9)), Interval::new(1, 9));
    ///     assert_eq!(a.hull(&Interval::empty()), a);
    ///     Ok(())
    /// }
    /// ```
    ///
    /// # Proved
    ///
    /// What [`Hull::hull`] says, by the words of the type.
    fn hull(&self, other: &Interval<B>) -> Interval<B> {
        if self.is_empty() {
            return *other;
        }
        if other.is_empty() {
            return *self;
        }
        Self::new(self.lb.min(other.lb), self.ub.max(other.ub))
    }
}

/// Proved, with these words of the trait:
///
/// ```text
/// members = { IsBetween }
/// ```
///
/// Words: [`IsBetween`](crate::definitions#IsBetween).
impl<B: Width> Subset for Interval<B> {
    /// Returns true exactly when each member is a member of `other`, so always for an empty
    /// interval.
    ///
    /// ```
    /// use intervallum::proved::examples::*;
    ///
    /// fn main() -> Result<(), std::boxed::Box<dyn std::error::Error>> {
    ///     let alloc = Global;
    ///     assert!(Interval::empty().is_subset(&Interval::new(1i32, 2)));
    ///     Ok(())
    /// }
    /// ```
    ///
    /// # Proved
    ///
    /// What [`Subset::is_subset`] says, by the words of the type.
    fn is_subset(&self, other: &Interval<B>) -> bool {
        if self.is_empty() {
            return true;
        }
        other.lb <= self.lb && self.ub <= other.ub
    }
}

/// Proved, with these words of the trait:
///
/// ```text
/// members = { IsBetween }
/// ```
///
/// Words: [`IsBetween`](crate::definitions#IsBetween).
impl<B: Width> ProperSubset for Interval<B> {
    /// Returns true exactly when each member is a member of `other`, and `other` has more.
    ///
    /// ```
    /// use intervallum::proved::examples::*;
    ///
    /// fn main() -> Result<(), std::boxed::Box<dyn std::error::Error>> {
    ///     let alloc = Global;
    ///     assert!(Interval::empty().is_proper_subset(&Interval::new(1i32, 2)));
    ///     Ok(())
    /// }
    /// ```
    ///
    /// # Proved
    ///
    /// What [`ProperSubset::is_proper_subset`] says, by the words of the type.
    fn is_proper_subset(&self, other: &Interval<B>) -> bool {
        self.is_subset(other) && self != other
    }
}

/// Proved, with these words of the trait:
///
/// ```text
/// members = { IsBetween }
/// answers = { λ p S. SameMembers (IsBetween p) S }
/// ```
///
/// Words: [`IsBetween`](crate::definitions#IsBetween), [`SameMembers`](crate::definitions#SameMembers).
impl<B: Width> Join for Interval<B> {
    type Output = Interval<B>;

    /// Returns the intersection.
    ///
    /// ```
    /// use intervallum::proved::examples::*;
    ///
    /// fn main() -> Result<(), std::boxed::Box<dyn std::error::Error>> {
    ///     let alloc = Global;
    ///     assert_eq!(Interval::new(1i32, 2).join(Interval::new(2, 3)), Interval::new(2, 2));
    ///     Ok(())
    /// }
    /// ```
    ///
    /// # Proved
    ///
    /// What [`Join::join`] says, by the words of the type.
    fn join(self, other: Interval<B>) -> Interval<B> {
        self.intersection(&other)
    }
}

/// Proved, with these words of the trait:
///
/// ```text
/// members = { IsBetween }
/// answers = { IsHullOf }
/// ```
///
/// Words: [`IsBetween`](crate::definitions#IsBetween), [`IsHullOf`](crate::definitions#IsHullOf).
impl<B: Width> Meet for Interval<B> {
    type Output = Interval<B>;

    /// Returns the hull.
    ///
    /// ```
    /// use intervallum::proved::examples::*;
    ///
    /// fn main() -> Result<(), std::boxed::Box<dyn std::error::Error>> {
    ///     let alloc = Global;
    ///     assert_eq!(Interval::new(1i32, 2).meet(Interval::new(5, 6)), Interval::new(1, 6));
    ///     Ok(())
    /// }
    /// ```
    ///
    /// # Proved
    ///
    /// What [`Meet::meet`] says, by the words of the type.
    fn meet(self, other: Interval<B>) -> Interval<B> {
        self.hull(&other)
    }
}

/// Proved, with these words of the trait:
///
/// ```text
/// members = { IsBetween }
/// ```
///
/// Words: [`IsBetween`](crate::definitions#IsBetween).
impl<B: Width> Entailment for Interval<B> {
    /// Returns `True` if `other` includes this interval, else `False` if this one includes `other`,
    /// else `Unknown`. So `[1..2]` entails `[0..10]`.
    ///
    /// ```
    /// use intervallum::proved::examples::*;
    ///
    /// fn main() -> Result<(), std::boxed::Box<dyn std::error::Error>> {
    ///     let alloc = Global;
    ///     let (a, b) = (Interval::new(1i32, 2), Interval::new(0, 10));
    ///     assert_eq!(a.entail(&b), SKleene::True);
    ///     assert_eq!(b.entail(&a), SKleene::False);
    ///     Ok(())
    /// }
    /// ```
    ///
    /// # Proved
    ///
    /// What [`Entailment::entail`] says, by the words of the type.
    fn entail(&self, other: &Interval<B>) -> SKleene {
        if self.is_subset(other) {
            SKleene::True
        } else if other.is_subset(self) {
            SKleene::False
        } else {
            SKleene::Unknown
        }
    }
}
