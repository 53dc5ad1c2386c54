// Written by bindings/rust/extract from crates/ivl_interval/src/interval/values.rt.
//! Operations on an interval and a value, which may be absent, in either order.

#[allow(unused_imports)]
use crate::rattle::prelude::*;
use crate::proved::ivl_interval::interval::Interval;
use crate::proved::ivl_interval::ops::{
    Contains, Difference, Disjoint, Empty, Hull, Intersection, Overlap, Range, Singleton,
    StrictShrinkLeft, StrictShrinkRight,
};
use crate::proved::ivl_interval::optional::Optional;
use crate::proved::ivl_interval::width::Width;

/// Proved, with these words of the trait:
///
/// ```text
/// members = { IsBetween }
/// other_members = { λ x. Only (B.value x) }
/// ```
///
/// Words: [`IsBetween`](crate::definitions#IsBetween), [`Only`](crate::definitions#Only).
impl<B: Width> Disjoint<B> for Interval<B> {
    /// Returns true exactly when the value is not a member.
    ///
    /// ```
    /// use intervallum::proved::examples::*;
    ///
    /// fn main() -> Result<(), std::boxed::Box<dyn std::error::Error>> {
    ///     let alloc = Global;
    ///     let a = Interval::new(3i32, 8);
    ///     assert!(a.is_disjoint(&9));
    ///     Ok(())
    /// }
    /// ```
    ///
    /// # Proved
    ///
    /// What [`Disjoint::is_disjoint`] says, by the words of the type.
    fn is_disjoint(&self, other: &B) -> bool {
        !self.contains(other)
    }
}

/// Proved, with these words of the trait:
///
/// ```text
/// members = { IsBetween }
/// other_members = { λ x. Only (B.value x) }
/// ```
///
/// Words: [`IsBetween`](crate::definitions#IsBetween), [`Only`](crate::definitions#Only).
impl<B: Width> Overlap<B> for Interval<B> {
    /// Returns true exactly when the value is a member.
    ///
    /// ```
    /// use intervallum::proved::examples::*;
    ///
    /// fn main() -> Result<(), std::boxed::Box<dyn std::error::Error>> {
    ///     let alloc = Global;
    ///     let a = Interval::new(3i32, 8);
    ///     assert!(a.overlap(&8));
    ///     Ok(())
    /// }
    /// ```
    ///
    /// # Proved
    ///
    /// What [`Overlap::overlap`] says, by the words of the type.
    fn overlap(&self, other: &B) -> bool {
        self.contains(other)
    }
}

/// Proved, with these words of the trait:
///
/// ```text
/// members = { IsBetween }
/// other_members = { λ x. Only (B.value x) }
/// answers = { λ p S. SameMembers (IsBetween p) S }
/// ```
///
/// Words: [`IsBetween`](crate::definitions#IsBetween), [`Only`](crate::definitions#Only), [`SameMembers`](crate::definitions#SameMembers).
impl<B: Width> Intersection<B> for Interval<B> {
    type Output = Interval<B>;

    /// Returns the value alone if it is a member, else an empty interval. It may be any value of
    /// its type.
    ///
    /// ```
    /// use intervallum::proved::examples::*;
    ///
    /// fn main() -> Result<(), std::boxed::Box<dyn std::error::Error>> {
    ///     let alloc = Global;
    ///     let a = Interval::new(3i32, 8);
    ///     assert_eq!(a.intersection(&4), Interval::new(4, 4));
    ///     Ok(())
    /// }
    /// ```
    ///
    /// # Proved
    ///
    /// What [`Intersection::intersection`] says, by the words of the type.
    fn intersection(&self, other: &B) -> Interval<B> {
        Self::new(self.lb.max(*other), self.ub.min(*other))
    }
}

/// Proved, with these words of the trait:
///
/// ```text
/// members = { IsBetween }
/// other_members = { λ x. Only (B.value x) }
/// answers = { IsHullOf }
/// ```
///
/// Words: [`IsBetween`](crate::definitions#IsBetween), [`Only`](crate::definitions#Only), [`IsHullOf`](crate::definitions#IsHullOf).
impl<B: Width> Difference<B> for Interval<B> {
    type Output = Interval<B>;

    /// Returns the least interval that holds the members except the value, which may be any value
    /// of its type.
    ///
    /// The original adds to a stored lower bound, or subtracts from a stored upper bound, that
    /// equals the value. So it overflows at `empty().difference(&0)` of `u32` and at
    /// `singleton(127).difference(&127)` of `i8`; here both are empty.
    ///
    /// ```
    /// use intervallum::proved::examples::*;
    ///
    /// fn main() -> Result<(), std::boxed::Box<dyn std::error::Error>> {
    ///     let alloc = Global;
    ///     let a = Interval::new(3i32, 8);
    ///     assert_eq!(a.difference(&3), Interval::new(4, 8));
    ///     assert_eq!(a.difference(&4), a);
    ///     Ok(())
    /// }
    /// ```
    ///
    /// # Proved
    ///
    /// What [`Difference::difference`] says, by the words of the type.
    fn difference(&self, other: &B) -> Interval<B> {
        if *other == self.lb {
            self.strict_shrink_left(*other)
        } else if *other == self.ub {
            self.strict_shrink_right(*other)
        } else {
            *self
        }
    }
}

/// Proved, with these words of the trait:
///
/// ```text
/// members = { IsBetween }
/// other_members = { λ x. Only (B.value x) }
/// can_join = { λ _ x. IsBetween B.whole (B.value x) }
/// answers = { IsHullOf }
/// ```
///
/// Words: [`IsBetween`](crate::definitions#IsBetween), [`Only`](crate::definitions#Only), [`IsHullOf`](crate::definitions#IsHullOf).
impl<B: Width> Hull<B> for Interval<B> {
    type Output = Interval<B>;

    /// Returns the least interval that holds the members and the value. The caller must ensure that
    /// the value is in the range. Check with `whole().contains(other)`.
    ///
    /// ```
    /// use intervallum::proved::examples::*;
    ///
    /// fn main() -> Result<(), std::boxed::Box<dyn std::error::Error>> {
    ///     let alloc = Global;
    ///     let a = Interval::new(3i32, 8);
    ///     assert_eq!(a.hull(&12), Interval::new(3, 12));
    ///     Ok(())
    /// }
    /// ```
    ///
    /// # Proved
    ///
    /// What [`Hull::hull`] says, by the words of the type.
    #[cfg_attr(debug_assertions, track_caller)]
    fn hull(&self, other: &B) -> Interval<B> {
        self.hull(&Self::singleton(*other))
    }
}

/// Proved, with these words of the trait:
///
/// ```text
/// members = { IsBetween }
/// other_members = { λ o. Held (option_map B.value o) }
/// ```
///
/// Words: [`IsBetween`](crate::definitions#IsBetween), [`Held`](crate::definitions#Held).
impl<B: Width> Disjoint<Optional<B>> for Interval<B> {
    /// Returns true exactly when the value is absent or not a member.
    ///
    /// ```
    /// use intervallum::proved::examples::*;
    ///
    /// fn main() -> Result<(), std::boxed::Box<dyn std::error::Error>> {
    ///     let alloc = Global;
    ///     let a = Interval::new(3i32, 8);
    ///     assert!(a.is_disjoint(&Optional::empty()));
    ///     Ok(())
    /// }
    /// ```
    ///
    /// # Proved
    ///
    /// What [`Disjoint::is_disjoint`] says, by the words of the type.
    fn is_disjoint(&self, other: &Optional<B>) -> bool {
        !self.overlap(other)
    }
}

/// Proved, with these words of the trait:
///
/// ```text
/// members = { IsBetween }
/// other_members = { λ o. Held (option_map B.value o) }
/// ```
///
/// Words: [`IsBetween`](crate::definitions#IsBetween), [`Held`](crate::definitions#Held).
impl<B: Width> Overlap<Optional<B>> for Interval<B> {
    /// Returns true exactly when there is a value and it is a member.
    ///
    /// ```
    /// use intervallum::proved::examples::*;
    ///
    /// fn main() -> Result<(), std::boxed::Box<dyn std::error::Error>> {
    ///     let alloc = Global;
    ///     let a = Interval::new(3i32, 8);
    ///     assert!(a.overlap(&Optional::singleton(8)));
    ///     Ok(())
    /// }
    /// ```
    ///
    /// # Proved
    ///
    /// What [`Overlap::overlap`] says, by the words of the type.
    fn overlap(&self, other: &Optional<B>) -> bool {
        match other.as_ref() {
            Some(x) => self.contains(x),
            None => false,
        }
    }
}

/// Proved, with these words of the trait:
///
/// ```text
/// members = { IsBetween }
/// other_members = { λ o. Held (option_map B.value o) }
/// answers = { λ p S. SameMembers (IsBetween p) S }
/// ```
///
/// Words: [`IsBetween`](crate::definitions#IsBetween), [`Held`](crate::definitions#Held), [`SameMembers`](crate::definitions#SameMembers).
impl<B: Width> Intersection<Optional<B>> for Interval<B> {
    type Output = Interval<B>;

    /// Returns the value alone if there is one and it is a member, else an empty interval.
    ///
    /// ```
    /// use intervallum::proved::examples::*;
    ///
    /// fn main() -> Result<(), std::boxed::Box<dyn std::error::Error>> {
    ///     let alloc = Global;
    ///     let a = Interval::new(3i32, 8);
    ///     assert_eq!(a.intersection(&Optional::singleton(4)), Interval::new(4, 4));
    ///     Ok(())
    /// }
    /// ```
    ///
    /// # Proved
    ///
    /// What [`Intersection::intersection`] says, by the words of the type.
    fn intersection(&self, other: &Optional<B>) -> Interval<B> {
        match other.as_ref() {
            Some(x) => self.intersection(x),
            None => Self::empty(),
        }
    }
}

/// Proved, with these words of the trait:
///
/// ```text
/// members = { IsBetween }
/// other_members = { λ o. Held (option_map B.value o) }
/// answers = { IsHullOf }
/// ```
///
/// Words: [`IsBetween`](crate::definitions#IsBetween), [`Held`](crate::definitions#Held), [`IsHullOf`](crate::definitions#IsHullOf).
impl<B: Width> Difference<Optional<B>> for Interval<B> {
    type Output = Interval<B>;

    /// Returns the least interval that holds the members except the value; if it is absent, the
    /// interval itself.
    ///
    /// ```
    /// use intervallum::proved::examples::*;
    ///
    /// fn main() -> Result<(), std::boxed::Box<dyn std::error::Error>> {
    ///     let alloc = Global;
    ///     let a = Interval::new(3i32, 8);
    ///     assert_eq!(a.difference(&Optional::singleton(3)), Interval::new(4, 8));
    ///     Ok(())
    /// }
    /// ```
    ///
    /// # Proved
    ///
    /// What [`Difference::difference`] says, by the words of the type.
    fn difference(&self, other: &Optional<B>) -> Interval<B> {
        match other.as_ref() {
            Some(x) => self.difference(x),
            None => *self,
        }
    }
}

/// Proved, with these words of the trait:
///
/// ```text
/// members = { λ x. Only (B.value x) }
/// other_members = { IsBetween }
/// ```
///
/// Words: [`Only`](crate::definitions#Only), [`IsBetween`](crate::definitions#IsBetween).
impl<B: Width> Disjoint<Interval<B>> for B {
    /// Returns true exactly when the value is not a member of `other`.
    ///
    /// ```
    /// use intervallum::proved::examples::*;
    ///
    /// fn main() -> Result<(), std::boxed::Box<dyn std::error::Error>> {
    ///     let alloc = Global;
    ///     let a = Interval::new(3i32, 8);
    ///     assert!(9.is_disjoint(&a));
    ///     Ok(())
    /// }
    /// ```
    ///
    /// # Proved
    ///
    /// What [`Disjoint::is_disjoint`] says, by the words of the type.
    fn is_disjoint(&self, other: &Interval<B>) -> bool {
        !other.contains(self)
    }
}

/// Proved, with these words of the trait:
///
/// ```text
/// members = { λ x. Only (B.value x) }
/// other_members = { IsBetween }
/// ```
///
/// Words: [`Only`](crate::definitions#Only), [`IsBetween`](crate::definitions#IsBetween).
impl<B: Width> Overlap<Interval<B>> for B {
    /// Returns true exactly when the value is a member of `other`.
    ///
    /// ```
    /// use intervallum::proved::examples::*;
    ///
    /// fn main() -> Result<(), std::boxed::Box<dyn std::error::Error>> {
    ///     let alloc = Global;
    ///     let a = Interval::new(3i32, 8);
    ///     assert!(8.overlap(&a));
    ///     Ok(())
    /// }
    /// ```
    ///
    /// # Proved
    ///
    /// What [`Overlap::overlap`] says, by the words of the type.
    fn overlap(&self, other: &Interval<B>) -> bool {
        other.contains(self)
    }
}

/// Proved, with these words of the trait:
///
/// ```text
/// members = { λ x. Only (B.value x) }
/// other_members = { IsBetween }
/// can_join = { λ x _. IsBetween B.whole (B.value x) }
/// answers = { IsHullOf }
/// ```
///
/// Words: [`Only`](crate::definitions#Only), [`IsBetween`](crate::definitions#IsBetween), [`IsHullOf`](crate::definitions#IsHullOf).
impl<B: Width> Hull<Interval<B>> for B {
    type Output = Interval<B>;

    /// Returns the least interval that holds the value and the members of `other`. The caller must
    /// ensure that the value is in the range. Check with `whole().contains(self)`.
    ///
    /// ```
    /// use intervallum::proved::examples::*;
    ///
    /// fn main() -> Result<(), std::boxed::Box<dyn std::error::Error>> {
    ///     let alloc = Global;
    ///     let a = Interval::new(3i32, 8);
    ///     assert_eq!(1.hull(&a), Interval::new(1, 8));
    ///     Ok(())
    /// }
    /// ```
    ///
    /// # Proved
    ///
    /// What [`Hull::hull`] says, by the words of the type.
    #[cfg_attr(debug_assertions, track_caller)]
    fn hull(&self, other: &Interval<B>) -> Interval<B> {
        Interval::singleton(*self).hull(other)
    }
}

/// Proved, with these words of the trait:
///
/// ```text
/// members = { λ o. Held (option_map B.value o) }
/// other_members = { IsBetween }
/// ```
///
/// Words: [`Held`](crate::definitions#Held), [`IsBetween`](crate::definitions#IsBetween).
impl<B: Width> Disjoint<Interval<B>> for Optional<B> {
    /// Returns true exactly when the value is absent or not a member of `other`.
    ///
    /// ```
    /// use intervallum::proved::examples::*;
    ///
    /// fn main() -> Result<(), std::boxed::Box<dyn std::error::Error>> {
    ///     let alloc = Global;
    ///     let a = Interval::new(3i32, 8);
    ///     assert!(Optional::singleton(9).is_disjoint(&a));
    ///     Ok(())
    /// }
    /// ```
    ///
    /// # Proved
    ///
    /// What [`Disjoint::is_disjoint`] says, by the words of the type.
    fn is_disjoint(&self, other: &Interval<B>) -> bool {
        other.is_disjoint(self)
    }
}

/// Proved, with these words of the trait:
///
/// ```text
/// members = { λ o. Held (option_map B.value o) }
/// other_members = { IsBetween }
/// ```
///
/// Words: [`Held`](crate::definitions#Held), [`IsBetween`](crate::definitions#IsBetween).
impl<B: Width> Overlap<Interval<B>> for Optional<B> {
    /// Returns true exactly when there is a value and it is a member of `other`.
    ///
    /// ```
    /// use intervallum::proved::examples::*;
    ///
    /// fn main() -> Result<(), std::boxed::Box<dyn std::error::Error>> {
    ///     let alloc = Global;
    ///     let a = Interval::new(3i32, 8);
    ///     assert!(Optional::singleton(8).overlap(&a));
    ///     Ok(())
    /// }
    /// ```
    ///
    /// # Proved
    ///
    /// What [`Overlap::overlap`] says, by the words of the type.
    fn overlap(&self, other: &Interval<B>) -> bool {
        other.overlap(self)
    }
}

/// Proved, with these words of the trait:
///
/// ```text
/// members = { λ o. Held (option_map B.value o) }
/// other_members = { IsBetween }
/// answers = { λ o S. SameMembers (Held (option_map B.value o)) S }
/// ```
///
/// Words: [`Held`](crate::definitions#Held), [`IsBetween`](crate::definitions#IsBetween), [`SameMembers`](crate::definitions#SameMembers).
impl<B: Width> Intersection<Interval<B>> for Optional<B> {
    type Output = Optional<B>;

    /// Returns the value if it is a member of `other`, else no value.
    ///
    /// ```
    /// use intervallum::proved::examples::*;
    ///
    /// fn main() -> Result<(), std::boxed::Box<dyn std::error::Error>> {
    ///     let alloc = Global;
    ///     let a = Interval::new(3i32, 8);
    ///     assert_eq!(Optional::singleton(4).intersection(&a), Optional::singleton(4));
    ///     Ok(())
    /// }
    /// ```
    ///
    /// # Proved
    ///
    /// The result holds the value if there is one and the interval has it, and nothing if not.
    ///
    /// ```text
    /// ensures members { SameMembers (Held (option_map B.value result)) (Intersection (Held (option_map B.value self.now)) (IsBetween other.now)) }
    /// ensures chosen { (result ≡ self.now) ⊎ (result ≡ None) }
    /// ```
    ///
    /// Words: [`SameMembers`](crate::definitions#SameMembers), [`Held`](crate::definitions#Held), [`Intersection`](crate::definitions#Intersection), [`IsBetween`](crate::definitions#IsBetween).
    fn intersection(&self, other: &Interval<B>) -> Optional<B> {
        if self.overlap(other) {
            *self
        } else {
            Optional::empty()
        }
    }
}

/// Proved, with these words of the trait:
///
/// ```text
/// members = { λ o. Held (option_map B.value o) }
/// other_members = { IsBetween }
/// answers = { λ o S. SameMembers (Held (option_map B.value o)) S }
/// ```
///
/// Words: [`Held`](crate::definitions#Held), [`IsBetween`](crate::definitions#IsBetween), [`SameMembers`](crate::definitions#SameMembers).
impl<B: Width> Difference<Interval<B>> for Optional<B> {
    type Output = Optional<B>;

    /// Returns the value if it is not a member of `other`, else no value.
    ///
    /// ```
    /// use intervallum::proved::examples::*;
    ///
    /// fn main() -> Result<(), std::boxed::Box<dyn std::error::Error>> {
    ///     let alloc = Global;
    ///     let a = Interval::new(3i32, 8);
    ///     assert_eq!(Optional::singleton(9).difference(&a), Optional::singleton(9));
    ///     Ok(())
    /// }
    /// ```
    ///
    /// # Proved
    ///
    /// The result holds the value if there is one and the interval does not have it, and nothing if not.
    ///
    /// ```text
    /// ensures members { SameMembers (Held (option_map B.value result)) (Without (Held (option_map B.value self.now)) (IsBetween other.now)) }
    /// ensures chosen { (result ≡ self.now) ⊎ (result ≡ None) }
    /// ```
    ///
    /// Words: [`SameMembers`](crate::definitions#SameMembers), [`Held`](crate::definitions#Held), [`Without`](crate::definitions#Without), [`IsBetween`](crate::definitions#IsBetween).
    fn difference(&self, other: &Interval<B>) -> Optional<B> {
        if self.is_disjoint(other) {
            *self
        } else {
            Optional::empty()
        }
    }
}
