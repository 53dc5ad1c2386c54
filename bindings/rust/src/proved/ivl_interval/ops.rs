// Written by bindings/rust/extract from crates/ivl_interval/src/ops.rt.
//! The operations on sets of integers, as traits.
//!
//! Each trait specifies its call by the members of the operands, through ghost members: `members`
//! and `other_members` are the members of the two operands as numbers, `number` is the number of an
//! item, `whole` is the range of the type of the bounds, and `answers` says when a result stands
//! for a set: if it has exactly its members, if it is the least interval that holds it, or, for a
//! `Result`, if it does so unless allocation failed.
//!
//! Calls on intervals take a few steps, do not allocate and never fail. Calls on sets document
//! their cost. Those that make a set return a `Result`, whose only error is a failed allocation.

#[allow(unused_imports)]
use crate::rattle::prelude::*;
use crate::proved::ivl_interval::interval::Interval;
use crate::proved::ivl_interval::kleene::SKleene;
use crate::proved::ivl_interval::width::Width;

/// A type whose values are sets of items, such as `Interval<B>` with items of type `B`.
///
/// Words and laws of the contracts:
///
/// ```text
/// members: { Self → ℤ → Type 0 }
/// number: { Self.Item → ℤ }
/// ```
pub trait Collection {
    /// The type of the items.
    type Item;
}

/// A marker: the values are intervals, or sets of intervals.
pub trait IntervalKind {}

/// The empty set.
///
/// ```
/// use intervallum::proved::examples::*;
///
/// fn main() -> Result<(), std::boxed::Box<dyn std::error::Error>> {
///     let alloc = Global;
///     assert!(Interval::<i32>::empty().is_empty());
///     Ok(())
/// }
/// ```
///
/// Words and laws of the contracts:
///
/// ```text
/// members: { Self → ℤ → Type 0 }
/// ```
pub trait Empty {
    /// Returns an empty set.
    ///
    /// # Proved
    ///
    /// The result has no member.
    ///
    /// ```text
    /// ensures { HasNone (members result) }
    /// ```
    ///
    /// Words: [`HasNone`](crate::definitions#HasNone).
    fn empty() -> Self;
}

/// The top of the lattice of information: the empty set. Sets are ordered by `entail`: the fewer
/// members, the more information.
///
/// ```
/// use intervallum::proved::examples::*;
///
/// fn main() -> Result<(), std::boxed::Box<dyn std::error::Error>> {
///     let alloc = Global;
///     assert_eq!(Interval::<i32>::top(), Interval::empty());
///     Ok(())
/// }
/// ```
///
/// Words and laws of the contracts:
///
/// ```text
/// members: { Self → ℤ → Type 0 }
/// ```
pub trait Top {
    /// Returns the empty set, which entails every other.
    ///
    /// # Proved
    ///
    /// The result has no member.
    ///
    /// ```text
    /// ensures { HasNone (members result) }
    /// ```
    ///
    /// Words: [`HasNone`](crate::definitions#HasNone).
    fn top() -> Self;
}

/// The bottom of the lattice of information: the whole range.
///
/// ```
/// use intervallum::proved::examples::*;
///
/// fn main() -> Result<(), std::boxed::Box<dyn std::error::Error>> {
///     let alloc = Global;
///     assert_eq!(Interval::<i32>::bot(), Interval::whole());
///     Ok(())
/// }
/// ```
///
/// Words and laws of the contracts:
///
/// ```text
/// members: { Self → ℤ → Type 0 }
/// whole: { ℤ × ℤ }
/// ```
pub trait Bot {
    /// Returns the numbers of the range, which every set entails.
    ///
    /// # Proved
    ///
    /// The members are exactly the numbers of the range.
    ///
    /// ```text
    /// ensures { SameMembers (members result) (IsBetween whole) }
    /// ```
    ///
    /// Words: [`SameMembers`](crate::definitions#SameMembers), [`IsBetween`](crate::definitions#IsBetween).
    fn bot() -> Self;
}

/// The whole range of the type of the bounds.
///
/// ```
/// use intervallum::proved::examples::*;
///
/// fn main() -> Result<(), std::boxed::Box<dyn std::error::Error>> {
///     let alloc = Global;
///     assert_eq!(Interval::<u8>::whole(), Interval::new(0, 254));
///     Ok(())
/// }
/// ```
///
/// Words and laws of the contracts:
///
/// ```text
/// members: { Self → ℤ → Type 0 }
/// whole: { ℤ × ℤ }
/// ```
pub trait Whole {
    /// Returns the numbers of the range.
    ///
    /// # Proved
    ///
    /// The members are exactly the numbers of the range.
    ///
    /// ```text
    /// ensures { SameMembers (members result) (IsBetween whole) }
    /// ```
    ///
    /// Words: [`SameMembers`](crate::definitions#SameMembers), [`IsBetween`](crate::definitions#IsBetween).
    fn whole() -> Self;
}

/// A set of one item.
///
/// ```
/// use intervallum::proved::examples::*;
///
/// fn main() -> Result<(), std::boxed::Box<dyn std::error::Error>> {
///     let alloc = Global;
///     assert_eq!(Interval::singleton(5i32), Interval::new(5, 5));
///     Ok(())
/// }
/// ```
///
/// Words and laws of the contracts:
///
/// ```text
/// whole: { ℤ × ℤ }
/// ```
pub trait Singleton: Collection {
    /// Returns the set of `item` alone. The caller must ensure that `item` is in the range. Check
    /// with `whole().contains(&item)`.
    ///
    /// # Proved
    ///
    /// The only member is the item.
    ///
    /// ```text
    /// requires { IsBetween whole (Self.number item) }
    /// ensures { SameMembers (Self.members result) (Only (Self.number item)) }
    /// ```
    ///
    /// Words: [`IsBetween`](crate::definitions#IsBetween), [`SameMembers`](crate::definitions#SameMembers), [`Only`](crate::definitions#Only).
    fn singleton(item: Self::Item) -> Self;
}

/// The set of the items from one to another.
///
/// ```
/// use intervallum::proved::examples::*;
///
/// fn main() -> Result<(), std::boxed::Box<dyn std::error::Error>> {
///     let alloc = Global;
///     assert_eq!(Interval::new(1i32, 5).size(), 5);
///     Ok(())
/// }
/// ```
///
/// Words and laws of the contracts:
///
/// ```text
/// whole: { ℤ × ℤ }
/// ```
pub trait Range: Collection {
    /// Returns the items from `lb` to `ub`, both included; empty if they cross. The caller must
    /// ensure that `lb` is not below the range and `ub` is not above it. Check with
    /// `Interval::in_range(lb, ub)`.
    ///
    /// # Proved
    ///
    /// The members are exactly the numbers from `lb` to `ub`.
    ///
    /// ```text
    /// requires { IsInRange whole (Self.number lb, Self.number ub) }
    /// ensures { SameMembers (Self.members result) (IsBetween (Self.number lb, Self.number ub)) }
    /// ```
    ///
    /// Words: [`IsInRange`](crate::definitions#IsInRange), [`SameMembers`](crate::definitions#SameMembers), [`IsBetween`](crate::definitions#IsBetween).
    fn new(lb: Self::Item, ub: Self::Item) -> Self;
}

/// The least and the greatest member.
///
/// ```
/// use intervallum::proved::examples::*;
///
/// fn main() -> Result<(), std::boxed::Box<dyn std::error::Error>> {
///     let alloc = Global;
///     let a = Interval::new(3i32, 8);
///     assert_eq!((a.lower(), a.upper()), (3, 8));
///     Ok(())
/// }
/// ```
pub trait Bounded: Collection {
    /// Returns the least member. The caller must ensure that the set is not empty. Check with
    /// `is_empty`.
    ///
    /// # Proved
    ///
    /// The result is the least member.
    ///
    /// ```text
    /// requires { HasSome (Self.members self.now) }
    /// ensures member { Self.members self.now (Self.number result) }
    /// ensures least { (z : ℤ) → Self.members self.now z → Self.number result ≤ℤ z }
    /// ```
    ///
    /// Words: [`HasSome`](crate::definitions#HasSome).
    fn lower(&self) -> Self::Item;

    /// Returns the greatest member. The caller must ensure that the set is not empty. Check with
    /// `is_empty`.
    ///
    /// # Proved
    ///
    /// The result is the greatest member.
    ///
    /// ```text
    /// requires { HasSome (Self.members self.now) }
    /// ensures member { Self.members self.now (Self.number result) }
    /// ensures greatest { (z : ℤ) → Self.members self.now z → z ≤ℤ Self.number result }
    /// ```
    ///
    /// Words: [`HasSome`](crate::definitions#HasSome).
    fn upper(&self) -> Self::Item;
}

/// The number of members of a set.
///
/// ```
/// use intervallum::proved::examples::*;
///
/// fn main() -> Result<(), std::boxed::Box<dyn std::error::Error>> {
///     let alloc = Global;
///     assert_eq!(Interval::new(-3i32, 3).size(), 7);
///     Ok(())
/// }
/// ```
///
/// Words and laws of the contracts:
///
/// ```text
/// members: { Self → ℤ → Type 0 }
/// size_number: { Self.Size → ℕ }
/// ```
pub trait Cardinality {
    /// The type of the number of members.
    type Size;

    /// Returns the number of members.
    ///
    /// # Proved
    ///
    /// The result is the number of members.
    ///
    /// ```text
    /// ensures { IsCountOf (size_number result) (members self.now) }
    /// ```
    ///
    /// Words: [`IsCountOf`](crate::definitions#IsCountOf).
    fn size(&self) -> Self::Size;
}

/// Whether a set is empty.
///
/// ```
/// use intervallum::proved::examples::*;
///
/// fn main() -> Result<(), std::boxed::Box<dyn std::error::Error>> {
///     let alloc = Global;
///     assert!(Interval::new(8i32, 3).is_empty());
///     Ok(())
/// }
/// ```
///
/// Words and laws of the contracts:
///
/// ```text
/// members: { Self → ℤ → Type 0 }
/// ```
pub trait IsEmpty {
    /// Returns true exactly when the set has no members.
    ///
    /// # Proved
    ///
    /// True exactly when there is no member; after false there is one.
    ///
    /// ```text
    /// ensures members { IsTrue result ↔ HasNone (members self.now) }
    /// ensures filled { ¬ (IsTrue result) → HasSome (members self.now) }
    /// ```
    ///
    /// Words: [`HasNone`](crate::definitions#HasNone), [`HasSome`](crate::definitions#HasSome).
    fn is_empty(&self) -> bool;
}

/// Whether a set has exactly one member.
///
/// ```
/// use intervallum::proved::examples::*;
///
/// fn main() -> Result<(), std::boxed::Box<dyn std::error::Error>> {
///     let alloc = Global;
///     assert!(Interval::new(5i32, 5).is_singleton());
///     Ok(())
/// }
/// ```
///
/// Words and laws of the contracts:
///
/// ```text
/// members: { Self → ℤ → Type 0 }
/// ```
pub trait IsSingleton {
    /// Returns true exactly when the set has one member and no other.
    ///
    /// # Proved
    ///
    /// True exactly when there is one member and no other.
    ///
    /// ```text
    /// ensures { IsTrue result ↔ ((x : ℤ) × SameMembers (members self.now) (Only x)) }
    /// ```
    ///
    /// Words: [`SameMembers`](crate::definitions#SameMembers), [`Only`](crate::definitions#Only).
    fn is_singleton(&self) -> bool;
}

/// Whether an item is a member.
///
/// ```
/// use intervallum::proved::examples::*;
///
/// fn main() -> Result<(), std::boxed::Box<dyn std::error::Error>> {
///     let alloc = Global;
///     let a = Interval::new(3i32, 8);
///     assert!(a.contains(&8) && !a.contains(&9));
///     Ok(())
/// }
/// ```
pub trait Contains: Collection {
    /// Returns true exactly when `item`, which may be any value of its type, is a member.
    ///
    /// # Proved
    ///
    /// True exactly when the item is a member.
    ///
    /// ```text
    /// ensures { IsTrue result ↔ Self.members self.now (Self.number item.now) }
    /// ```
    fn contains(&self, item: &Self::Item) -> bool;
}

/// Whether two sets have no common member.
///
/// ```
/// use intervallum::proved::examples::*;
///
/// fn main() -> Result<(), std::boxed::Box<dyn std::error::Error>> {
///     let alloc = Global;
///     assert!(Interval::new(1i32, 2).is_disjoint(&Interval::new(3, 4)));
///     Ok(())
/// }
/// ```
///
/// Words and laws of the contracts:
///
/// ```text
/// members: { Self → ℤ → Type 0 }
/// other_members: { R → ℤ → Type 0 }
/// ```
pub trait Disjoint<R> {
    /// Returns true exactly when no number is a member of both.
    ///
    /// # Proved
    ///
    /// True exactly when no number is a member of both.
    ///
    /// ```text
    /// ensures { IsTrue result ↔ HasNone (Intersection (members self.now) (other_members other.now)) }
    /// ```
    ///
    /// Words: [`HasNone`](crate::definitions#HasNone), [`Intersection`](crate::definitions#Intersection).
    fn is_disjoint(&self, other: &R) -> bool;
}

/// Whether two sets have a common member.
///
/// ```
/// use intervallum::proved::examples::*;
///
/// fn main() -> Result<(), std::boxed::Box<dyn std::error::Error>> {
///     let alloc = Global;
///     assert!(Interval::new(1i32, 5).overlap(&Interval::new(5, 9)));
///     Ok(())
/// }
/// ```
///
/// Words and laws of the contracts:
///
/// ```text
/// members: { Self → ℤ → Type 0 }
/// other_members: { R → ℤ → Type 0 }
/// ```
pub trait Overlap<R> {
    /// Returns true exactly when some number is a member of both.
    ///
    /// # Proved
    ///
    /// True exactly when some number is a member of both.
    ///
    /// ```text
    /// ensures { IsTrue result ↔ HasSome (Intersection (members self.now) (other_members other.now)) }
    /// ```
    ///
    /// Words: [`HasSome`](crate::definitions#HasSome), [`Intersection`](crate::definitions#Intersection).
    fn overlap(&self, other: &R) -> bool;
}

/// Inclusion.
///
/// ```
/// use intervallum::proved::examples::*;
///
/// fn main() -> Result<(), std::boxed::Box<dyn std::error::Error>> {
///     let alloc = Global;
///     let (a, b) = (Interval::new(1i32, 2), Interval::new(0, 10));
///     assert!(a.is_subset(&b) && a.is_subset(&a));
///     Ok(())
/// }
/// ```
///
/// Words and laws of the contracts:
///
/// ```text
/// members: { Self → ℤ → Type 0 }
/// ```
pub trait Subset {
    /// Returns true exactly when each member is a member of `other`.
    ///
    /// # Proved
    ///
    /// True exactly when each member is a member of `other`.
    ///
    /// ```text
    /// ensures { IsTrue result ↔ IsSubset (members self.now) (members other.now) }
    /// ```
    ///
    /// Words: [`IsSubset`](crate::definitions#IsSubset).
    fn is_subset(&self, other: &Self) -> bool;
}

/// Inclusion of sets that differ.
///
/// ```
/// use intervallum::proved::examples::*;
///
/// fn main() -> Result<(), std::boxed::Box<dyn std::error::Error>> {
///     let alloc = Global;
///     let (a, b) = (Interval::new(1i32, 2), Interval::new(0, 10));
///     assert!(a.is_proper_subset(&b) && !a.is_proper_subset(&a));
///     Ok(())
/// }
/// ```
///
/// Words and laws of the contracts:
///
/// ```text
/// members: { Self → ℤ → Type 0 }
/// ```
pub trait ProperSubset {
    /// Returns true exactly when each member is a member of `other`, and `other` has more.
    ///
    /// # Proved
    ///
    /// True exactly when each member is a member of `other`, and the two sets differ.
    ///
    /// ```text
    /// ensures { IsTrue result ↔ IsProperSubset (members self.now) (members other.now) }
    /// ```
    ///
    /// Words: [`IsProperSubset`](crate::definitions#IsProperSubset).
    fn is_proper_subset(&self, other: &Self) -> bool;
}

/// The union of two sets.
///
/// ```
/// use intervallum::proved::examples::*;
///
/// fn main() -> Result<(), std::boxed::Box<dyn std::error::Error>> {
///     let alloc = Global;
///     let a = IntervalSet::new(alloc, 1i32, 2)?;
///     let b = IntervalSet::new(alloc, 2, 5)?;
///     assert_eq!(a.union(&b)?.size(), 5u32);
///     Ok(())
/// }
/// ```
///
/// Words and laws of the contracts:
///
/// ```text
/// members: { Self → ℤ → Type 0 }
/// other_members: { R → ℤ → Type 0 }
/// can_unite: { Self → R → Type 0 }
/// answers: { Self.Output → (ℤ → Type 0) → Type 0 }
/// ```
pub trait Union<R> {
    type Output;

    /// Returns the numbers that are members of at least one of the two. If `other` is a single
    /// value, the caller must ensure that it is in the range. Check with
    /// `Interval::whole().contains(&value)`.
    ///
    /// # Proved
    ///
    /// The result stands for the members of either.
    ///
    /// ```text
    /// requires { can_unite self.now other.now }
    /// ensures { answers result (Union (members self.now) (other_members other.now)) }
    /// ```
    ///
    /// Words: [`Union`](crate::definitions#Union).
    fn union(&self, other: &R) -> Self::Output;
}

/// The members that two sets have in common.
///
/// ```
/// use intervallum::proved::examples::*;
///
/// fn main() -> Result<(), std::boxed::Box<dyn std::error::Error>> {
///     let alloc = Global;
///     let (a, b) = (Interval::new(1i32, 5), Interval::new(4, 9));
///     assert_eq!(a.intersection(&b), Interval::new(4, 5));
///     Ok(())
/// }
/// ```
///
/// Words and laws of the contracts:
///
/// ```text
/// members: { Self → ℤ → Type 0 }
/// other_members: { R → ℤ → Type 0 }
/// answers: { Self.Output → (ℤ → Type 0) → Type 0 }
/// ```
pub trait Intersection<R> {
    type Output;

    /// Returns the numbers that are members of both.
    ///
    /// # Proved
    ///
    /// The result stands for the members of both.
    ///
    /// ```text
    /// ensures { answers result (Intersection (members self.now) (other_members other.now)) }
    /// ```
    ///
    /// Words: [`Intersection`](crate::definitions#Intersection).
    fn intersection(&self, other: &R) -> Self::Output;
}

/// The members of one set that are not in another.
///
/// ```
/// use intervallum::proved::examples::*;
///
/// fn main() -> Result<(), std::boxed::Box<dyn std::error::Error>> {
///     let alloc = Global;
///     let (a, b) = (Interval::new(1i32, 5), Interval::new(4, 9));
///     assert_eq!(a.difference(&b), Interval::new(1, 3));
///     Ok(())
/// }
/// ```
///
/// Words and laws of the contracts:
///
/// ```text
/// members: { Self → ℤ → Type 0 }
/// other_members: { R → ℤ → Type 0 }
/// answers: { Self.Output → (ℤ → Type 0) → Type 0 }
/// ```
pub trait Difference<R> {
    type Output;

    /// Returns the members that are not in `other`, or the least interval that holds them if the
    /// result is an interval.
    ///
    /// # Proved
    ///
    /// The result stands for the members of `self` that are not in `other`.
    ///
    /// ```text
    /// ensures { answers result (Without (members self.now) (other_members other.now)) }
    /// ```
    ///
    /// Words: [`Without`](crate::definitions#Without).
    fn difference(&self, other: &R) -> Self::Output;
}

/// The members of exactly one of two sets.
///
/// ```
/// use intervallum::proved::examples::*;
///
/// fn main() -> Result<(), std::boxed::Box<dyn std::error::Error>> {
///     let alloc = Global;
///     let a = IntervalSet::new(alloc, 1i32, 2)?;
///     let b = IntervalSet::new(alloc, 2, 5)?;
///     assert_eq!(a.symmetric_difference(&b)?.size(), 4u32);
///     Ok(())
/// }
/// ```
///
/// Words and laws of the contracts:
///
/// ```text
/// members: { Self → ℤ → Type 0 }
/// other_members: { R → ℤ → Type 0 }
/// can_unite: { Self → R → Type 0 }
/// answers: { Self.Output → (ℤ → Type 0) → Type 0 }
/// ```
pub trait SymmetricDifference<R> {
    type Output;

    /// Returns the numbers that are members of exactly one of the two. If `other` is a single
    /// value, the caller must ensure that it is in the range. Check with
    /// `Interval::whole().contains(&value)`.
    ///
    /// # Proved
    ///
    /// The result stands for the members of either that are not in both.
    ///
    /// ```text
    /// requires { can_unite self.now other.now }
    /// ensures { answers result (SymmetricDifference (members self.now) (other_members other.now)) }
    /// ```
    ///
    /// Words: [`SymmetricDifference`](crate::definitions#SymmetricDifference).
    fn symmetric_difference(&self, other: &R) -> Self::Output;
}

/// The least interval that holds two sets.
///
/// ```
/// use intervallum::proved::examples::*;
///
/// fn main() -> Result<(), std::boxed::Box<dyn std::error::Error>> {
///     let alloc = Global;
///     let (a, b) = (Interval::new(1i32, 5), Interval::new(4, 9));
///     assert_eq!(a.hull(&b), Interval::new(1, 9));
///     Ok(())
/// }
/// ```
///
/// Words and laws of the contracts:
///
/// ```text
/// members: { Self → ℤ → Type 0 }
/// other_members: { R → ℤ → Type 0 }
/// can_join: { Self → R → Type 0 }
/// answers: { Self.Output → (ℤ → Type 0) → Type 0 }
/// ```
pub trait Hull<R> {
    type Output;

    /// Returns the least interval that holds the members of both. If one of the two is a single
    /// value, the caller must ensure that it is in the range. Check with
    /// `Interval::whole().contains(&value)`.
    ///
    /// # Proved
    ///
    /// The result stands for the members of either.
    ///
    /// ```text
    /// requires { can_join self.now other.now }
    /// ensures { answers result (Union (members self.now) (other_members other.now)) }
    /// ```
    ///
    /// Words: [`Union`](crate::definitions#Union).
    fn hull(&self, other: &R) -> Self::Output;
}

/// The complement of a set within the range of its type.
///
/// ```
/// use intervallum::proved::examples::*;
///
/// fn main() -> Result<(), std::boxed::Box<dyn std::error::Error>> {
///     let alloc = Global;
///     let a = IntervalSet::new(alloc, 1u8, 254)?;
///     let rest = a.complement()?;
///     assert!(rest.contains(&0) && rest.is_singleton());
///     Ok(())
/// }
/// ```
///
/// Words and laws of the contracts:
///
/// ```text
/// whole: { ℤ × ℤ }
/// members: { Self → ℤ → Type 0 }
/// answers: { Self.Output → (ℤ → Type 0) → Type 0 }
/// ```
pub trait Complement {
    type Output;

    /// Returns the numbers of the range that are not in the set.
    ///
    /// # Proved
    ///
    /// The result stands for the numbers of the range that are not members.
    ///
    /// ```text
    /// ensures { answers result (Complement whole (members self.now)) }
    /// ```
    ///
    /// Words: [`Complement`](crate::definitions#Complement).
    fn complement(&self) -> Self::Output;
}

/// A set cut from the left.
///
/// ```
/// use intervallum::proved::examples::*;
///
/// fn main() -> Result<(), std::boxed::Box<dyn std::error::Error>> {
///     let alloc = Global;
///     let a = Interval::new(1i32, 9);
///     assert_eq!(a.shrink_left(4), Interval::new(4, 9));
///     Ok(())
/// }
/// ```
///
/// Words and laws of the contracts:
///
/// ```text
/// answers: { Self.Output → (ℤ → Type 0) → Type 0 }
/// ```
pub trait ShrinkLeft: Collection {
    type Output;

    /// Returns the members that are at least `lower`, for any value of its type.
    ///
    /// # Proved
    ///
    /// The result stands for the members that are at least `lower`.
    ///
    /// ```text
    /// ensures { answers result (AtLeast (Self.number lower) (Self.members self.now)) }
    /// ```
    ///
    /// Words: [`AtLeast`](crate::definitions#AtLeast).
    fn shrink_left(&self, lower: Self::Item) -> Self::Output;
}

/// A set cut from the right.
///
/// ```
/// use intervallum::proved::examples::*;
///
/// fn main() -> Result<(), std::boxed::Box<dyn std::error::Error>> {
///     let alloc = Global;
///     let a = Interval::new(1i32, 9);
///     assert_eq!(a.shrink_right(4), Interval::new(1, 4));
///     Ok(())
/// }
/// ```
///
/// Words and laws of the contracts:
///
/// ```text
/// answers: { Self.Output → (ℤ → Type 0) → Type 0 }
/// ```
pub trait ShrinkRight: Collection {
    type Output;

    /// Returns the members that are at most `upper`, for any value of its type.
    ///
    /// # Proved
    ///
    /// The result stands for the members that are at most `upper`.
    ///
    /// ```text
    /// ensures { answers result (AtMost (Self.number upper) (Self.members self.now)) }
    /// ```
    ///
    /// Words: [`AtMost`](crate::definitions#AtMost).
    fn shrink_right(&self, upper: Self::Item) -> Self::Output;
}

/// A set cut from the left, excluding the item.
///
/// ```
/// use intervallum::proved::examples::*;
///
/// fn main() -> Result<(), std::boxed::Box<dyn std::error::Error>> {
///     let alloc = Global;
///     let a = Interval::new(1i32, 9);
///     assert_eq!(a.strict_shrink_left(4), Interval::new(5, 9));
///     Ok(())
/// }
/// ```
///
/// Words and laws of the contracts:
///
/// ```text
/// answers: { Self.Output → (ℤ → Type 0) → Type 0 }
/// ```
pub trait StrictShrinkLeft: Collection {
    type Output;

    /// Returns the members above `lower`, for any value of its type.
    ///
    /// # Proved
    ///
    /// The result stands for the members above `lower`.
    ///
    /// ```text
    /// ensures { answers result (Above (Self.number lower) (Self.members self.now)) }
    /// ```
    ///
    /// Words: [`Above`](crate::definitions#Above).
    fn strict_shrink_left(&self, lower: Self::Item) -> Self::Output;
}

/// A set cut from the right, excluding the item.
///
/// ```
/// use intervallum::proved::examples::*;
///
/// fn main() -> Result<(), std::boxed::Box<dyn std::error::Error>> {
///     let alloc = Global;
///     let a = Interval::new(1i32, 9);
///     assert_eq!(a.strict_shrink_right(4), Interval::new(1, 3));
///     Ok(())
/// }
/// ```
///
/// Words and laws of the contracts:
///
/// ```text
/// answers: { Self.Output → (ℤ → Type 0) → Type 0 }
/// ```
pub trait StrictShrinkRight: Collection {
    type Output;

    /// Returns the members below `upper`, for any value of its type.
    ///
    /// # Proved
    ///
    /// The result stands for the members below `upper`.
    ///
    /// ```text
    /// ensures { answers result (Below (Self.number upper) (Self.members self.now)) }
    /// ```
    ///
    /// Words: [`Below`](crate::definitions#Below).
    fn strict_shrink_right(&self, upper: Self::Item) -> Self::Output;
}

/// The join of two sets: the common members. Sets are ordered by information, so the join is the
/// intersection, although the word often stands for the union.
///
/// ```
/// use intervallum::proved::examples::*;
///
/// fn main() -> Result<(), std::boxed::Box<dyn std::error::Error>> {
///     let alloc = Global;
///     let (a, b) = (Interval::new(1i32, 5), Interval::new(4, 9));
///     assert_eq!(a.join(b), Interval::new(4, 5));
///     Ok(())
/// }
/// ```
///
/// Words and laws of the contracts:
///
/// ```text
/// members: { Self → ℤ → Type 0 }
/// answers: { Self.Output → (ℤ → Type 0) → Type 0 }
/// ```
pub trait Join: Sized {
    type Output;

    /// Returns the members of both.
    ///
    /// # Proved
    ///
    /// The result stands for the members of both.
    ///
    /// ```text
    /// ensures { answers result (Intersection (members self) (members other)) }
    /// ```
    ///
    /// Words: [`Intersection`](crate::definitions#Intersection).
    fn join(self, other: Self) -> Self::Output;
}

/// The meet of two sets: what holds the members of either. Sets are ordered by information, so the
/// meet is the union, although the word often stands for the intersection.
///
/// ```
/// use intervallum::proved::examples::*;
///
/// fn main() -> Result<(), std::boxed::Box<dyn std::error::Error>> {
///     let alloc = Global;
///     let (a, b) = (Interval::new(1i32, 5), Interval::new(4, 9));
///     assert_eq!(a.meet(b), Interval::new(1, 9));
///     Ok(())
/// }
/// ```
///
/// Words and laws of the contracts:
///
/// ```text
/// members: { Self → ℤ → Type 0 }
/// answers: { Self.Output → (ℤ → Type 0) → Type 0 }
/// ```
pub trait Meet: Sized {
    type Output;

    /// Returns the members of at least one, or the least interval that holds them if the result is
    /// an interval.
    ///
    /// # Proved
    ///
    /// The result stands for the members of either.
    ///
    /// ```text
    /// ensures { answers result (Union (members self) (members other)) }
    /// ```
    ///
    /// Words: [`Union`](crate::definitions#Union).
    fn meet(self, other: Self) -> Self::Output;
}

/// Whether one set has at least the information of another.
///
/// ```
/// use intervallum::proved::examples::*;
///
/// fn main() -> Result<(), std::boxed::Box<dyn std::error::Error>> {
///     let alloc = Global;
///     let (a, b) = (Interval::new(1i32, 5), Interval::new(4, 9));
///     assert_eq!(a.entail(&b), SKleene::Unknown);
///     Ok(())
/// }
/// ```
///
/// Words and laws of the contracts:
///
/// ```text
/// members: { Self → ℤ → Type 0 }
/// ```
pub trait Entailment {
    /// Returns `True` if each member is a member of `other`, else `False` if it is the other way
    /// round, else `Unknown`.
    ///
    /// # Proved
    ///
    /// `True` if each member is a member of `other`; else `False` if each member of `other` is one of `self`; else `Unknown`.
    ///
    /// ```text
    /// ensures { IsEntailmentOf (members self.now) (members other.now) result }
    /// ```
    ///
    /// Words: [`IsEntailmentOf`](crate::definitions#IsEntailmentOf).
    fn entail(&self, other: &Self) -> SKleene;
}

/// A value that can be converted to an interval.
///
/// ```
/// use intervallum::proved::examples::*;
///
/// fn main() -> Result<(), std::boxed::Box<dyn std::error::Error>> {
///     let alloc = Global;
///     let a: Interval<i32> = (1..=5).to_interval();
///     assert_eq!(a, Interval::new(1, 5));
///     Ok(())
/// }
/// ```
///
/// Words and laws of the contracts:
///
/// ```text
/// can_convert: { Self → Type 0 }
/// interval: { Self → ℤ × ℤ }
/// ```
pub trait ToInterval<B: Width> {
    /// Returns the interval that the value stands for. The caller must ensure that its lower bound
    /// is not below the range and its upper bound is not above it. Check with `Interval::in_range`.
    ///
    /// # Proved
    ///
    /// The members are exactly the numbers from the one bound to the other; if the bounds do not cross, they are those of the result.
    ///
    /// ```text
    /// requires { can_convert self }
    /// ensures members { SameMembers (IsBetween result) (IsBetween (interval self)) }
    /// ensures bounds { (interval self).0 ≤ℤ (interval self).1 → result ≡ interval self }
    /// ```
    ///
    /// Words: [`SameMembers`](crate::definitions#SameMembers), [`IsBetween`](crate::definitions#IsBetween).
    fn to_interval(self) -> Interval<B>;
}

/// Whether the results of arithmetic are in the range.
///
/// ```
/// use intervallum::proved::examples::*;
///
/// fn main() -> Result<(), std::boxed::Box<dyn std::error::Error>> {
///     let alloc = Global;
///     let (a, b) = (Interval::new(1i32, 2), Interval::new(10, 20));
///     assert!(a.fits_add(&b) && a.fits_sub(&b) && a.fits_mul(&b));
///     Ok(())
/// }
/// ```
///
/// Words and laws of the contracts:
///
/// ```text
/// whole: { ℤ × ℤ }
/// members: { Self → ℤ → Type 0 }
/// other_members: { R → ℤ → Type 0 }
/// ```
pub trait Fits<R> {
    /// Returns true exactly when each sum of a member of `self` and a member of `other` is in the
    /// range.
    ///
    /// # Proved
    ///
    /// True exactly when the sum of each member of `self` and each of `other` is in the range.
    ///
    /// ```text
    /// ensures { IsTrue result ↔ IsSubset (Sums (members self.now) (other_members other.now)) (IsBetween whole) }
    /// ```
    ///
    /// Words: [`IsSubset`](crate::definitions#IsSubset), [`Sums`](crate::definitions#Sums), [`IsBetween`](crate::definitions#IsBetween).
    fn fits_add(&self, other: &R) -> bool;

    /// Returns true exactly when each difference is in the range.
    ///
    /// # Proved
    ///
    /// True exactly when the difference of each member of `self` and each of `other` is in the range.
    ///
    /// ```text
    /// ensures { IsTrue result ↔ IsSubset (Differences (members self.now) (other_members other.now)) (IsBetween whole) }
    /// ```
    ///
    /// Words: [`IsSubset`](crate::definitions#IsSubset), [`Differences`](crate::definitions#Differences), [`IsBetween`](crate::definitions#IsBetween).
    fn fits_sub(&self, other: &R) -> bool;

    /// Returns true exactly when each product is in the range.
    ///
    /// # Proved
    ///
    /// True exactly when the product of each member of `self` and each of `other` is in the range.
    ///
    /// ```text
    /// ensures { IsTrue result ↔ IsSubset (ExactProducts (members self.now) (other_members other.now)) (IsBetween whole) }
    /// ```
    ///
    /// Words: [`IsSubset`](crate::definitions#IsSubset), [`ExactProducts`](crate::definitions#ExactProducts), [`IsBetween`](crate::definitions#IsBetween).
    fn fits_mul(&self, other: &R) -> bool;
}
