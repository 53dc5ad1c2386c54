// Written by bindings/rust/extract from crates/intervallum/src/interval_set/bounds.rt.
//! Sets of one run, the least and the greatest member, and the interval between them.

#[allow(unused_imports)]
use crate::rattle::prelude::*;
use super::IntervalSet;
use super::run_lists::hull_of_runs;
use crate::proved::intervallum::interval::Interval;
use crate::proved::intervallum::ops::{Bounded, IsEmpty, IsSingleton};
use crate::proved::intervallum::width::Width;
use crate::rattle::std::alloc::{AllocError, Global};

impl<B: Width> IntervalSet<B> {
    /// Returns the set of `x` alone. The caller must ensure that `x` is in the range. Check with
    /// `Interval::whole().contains(&x)`. `O(1)`. Allocates one run. Fails only if allocation fails.
    ///
    /// ```
    /// use intervallum::proved::examples::*;
    ///
    /// fn main() -> Result<(), std::boxed::Box<dyn std::error::Error>> {
    ///     let alloc = Global;
    ///     let five = IntervalSet::singleton(alloc, 5)?;
    ///     assert!(five == IntervalSet::new(alloc, 5, 5)?);
    ///     Ok(())
    /// }
    /// ```
    ///
    /// # Proved
    ///
    /// On success, the only member is `x`.
    ///
    /// ```text
    /// requires { IsBetween B.whole (B.value x) }
    /// ensures { IfOk result (λ L. L ≡ (B.value x, B.value x) ∷ []) }
    /// ```
    ///
    /// Words: [`IsBetween`](crate::definitions#IsBetween).
    #[cfg_attr(debug_assertions, track_caller)]
    pub fn singleton(alloc: Global, x: B) -> Result<Self, AllocError> {
        Self::new(alloc, x, x)
    }

    /// Returns the range of `B`, as one run. `O(1)`. Allocates one run. Fails only if allocation
    /// fails.
    ///
    /// ```
    /// use intervallum::proved::examples::*;
    ///
    /// fn main() -> Result<(), std::boxed::Box<dyn std::error::Error>> {
    ///     let alloc = Global;
    ///     let bytes = IntervalSet::<u8>::whole(alloc)?;
    ///     assert!(bytes.contains(&0) && bytes.contains(&254) && !bytes.contains(&255));
    ///     Ok(())
    /// }
    /// ```
    ///
    /// # Proved
    ///
    /// On success, the result is the whole range, as one run.
    ///
    /// ```text
    /// ensures { IfOk result (λ L. L ≡ B.whole ∷ []) }
    /// ```
    pub fn whole(alloc: Global) -> Result<Self, AllocError> {
        Self::new(alloc, B::min_value(), B::max_value())
    }

    /// Returns the range of `B`, which every set entails. `O(1)`. Allocates one run. Fails only if
    /// allocation fails.
    ///
    /// ```
    /// use intervallum::proved::examples::*;
    ///
    /// fn main() -> Result<(), std::boxed::Box<dyn std::error::Error>> {
    ///     let alloc = Global;
    ///     assert!(IntervalSet::<u8>::bot(alloc)? == IntervalSet::whole(alloc)?);
    ///     Ok(())
    /// }
    /// ```
    ///
    /// # Proved
    ///
    /// On success, the result is the whole range, as one run.
    ///
    /// ```text
    /// ensures { IfOk result (λ L. L ≡ B.whole ∷ []) }
    /// ```
    pub fn bot(alloc: Global) -> Result<Self, AllocError> {
        Self::whole(alloc)
    }

    /// Returns the empty set, which entails every other. `O(1)`. Does not allocate.
    ///
    /// ```
    /// use intervallum::proved::examples::*;
    ///
    /// fn main() -> Result<(), std::boxed::Box<dyn std::error::Error>> {
    ///     let alloc = Global;
    ///     assert!(IntervalSet::<u8>::top(alloc).is_empty());
    ///     Ok(())
    /// }
    /// ```
    ///
    /// # Proved
    ///
    /// The result is the empty set.
    ///
    /// ```text
    /// ensures { result ≡ [] }
    /// ```
    pub fn top(alloc: Global) -> Self {
        Self::empty(alloc)
    }

    /// Returns the least member, or `None` if there is none. `O(1)`. Does not allocate.
    ///
    /// ```
    /// use intervallum::proved::examples::*;
    ///
    /// fn main() -> Result<(), std::boxed::Box<dyn std::error::Error>> {
    ///     let alloc = Global;
    ///     let a: IntervalSet<i32> = [(1, 2), (5, 6)].to_interval_set(alloc)?;
    ///     assert_eq!(a.first(), Some(1));
    ///     assert_eq!(IntervalSet::<i32>::empty(alloc).first(), None);
    ///     Ok(())
    /// }
    /// ```
    ///
    /// # Proved
    ///
    /// The result is the least member, which is in the range, or `None` if there is none.
    ///
    /// ```text
    /// ensures least { MatchOption result (HasNone (Covers self.now)) (λ x. IsLeast (B.value x) (Covers self.now)) }
    /// ensures in_range { IfSome result (λ x. IsBetween B.whole (B.value x)) }
    /// ```
    ///
    /// Words: [`HasNone`](crate::definitions#HasNone), [`Covers`](crate::definitions#Covers), [`IsLeast`](crate::definitions#IsLeast), [`IsBetween`](crate::definitions#IsBetween).
    pub fn first(&self) -> Option<B> {
        if self.is_empty() {
            None
        } else {
            Some(self.lower())
        }
    }

    /// Returns the greatest member, or `None` if there is none. `O(1)`. Does not allocate.
    ///
    /// ```
    /// use intervallum::proved::examples::*;
    ///
    /// fn main() -> Result<(), std::boxed::Box<dyn std::error::Error>> {
    ///     let alloc = Global;
    ///     let a: IntervalSet<i32> = [(1, 2), (5, 6)].to_interval_set(alloc)?;
    ///     assert_eq!(a.last(), Some(6));
    ///     assert_eq!(IntervalSet::<i32>::empty(alloc).last(), None);
    ///     Ok(())
    /// }
    /// ```
    ///
    /// # Proved
    ///
    /// The result is the greatest member, which is in the range, or `None` if there is none.
    ///
    /// ```text
    /// ensures greatest { MatchOption result (HasNone (Covers self.now)) (λ x. IsGreatest (B.value x) (Covers self.now)) }
    /// ensures in_range { IfSome result (λ x. IsBetween B.whole (B.value x)) }
    /// ```
    ///
    /// Words: [`HasNone`](crate::definitions#HasNone), [`Covers`](crate::definitions#Covers), [`IsGreatest`](crate::definitions#IsGreatest), [`IsBetween`](crate::definitions#IsBetween).
    pub fn last(&self) -> Option<B> {
        if self.is_empty() {
            None
        } else {
            Some(self.upper())
        }
    }

    /// Returns the least interval that holds the members: from the least to the greatest, or empty
    /// if there is none. `O(1)`. Does not allocate.
    ///
    /// ```
    /// use intervallum::proved::examples::*;
    ///
    /// fn main() -> Result<(), std::boxed::Box<dyn std::error::Error>> {
    ///     let alloc = Global;
    ///     let a: IntervalSet<i32> = [(1, 2), (5, 6)].to_interval_set(alloc)?;
    ///     assert!(a.hull() == Interval::new(1, 6));
    ///     assert!(IntervalSet::<i32>::empty(alloc).hull().is_empty());
    ///     Ok(())
    /// }
    /// ```
    ///
    /// # Proved
    ///
    /// The result is the least interval that holds all members.
    ///
    /// ```text
    /// ensures { IsHullOf result (Covers self.now) }
    /// ```
    ///
    /// Words: [`IsHullOf`](crate::definitions#IsHullOf), [`Covers`](crate::definitions#Covers).
    pub fn hull(&self) -> Interval<B> {
        hull_of_runs(self.as_runs())
    }
}

impl<B: Width> Bounded for IntervalSet<B> {
    /// Returns the least member: the start of the first run. The caller must ensure that the set is
    /// not empty. Check with `is_empty`. `O(1)`. Does not allocate.
    ///
    /// ```
    /// use intervallum::proved::examples::*;
    ///
    /// fn main() -> Result<(), std::boxed::Box<dyn std::error::Error>> {
    ///     let alloc = Global;
    ///     let a: IntervalSet<i32> = [(1, 2), (5, 6)].to_interval_set(alloc)?;
    ///     assert!(!a.is_empty() && a.lower() == 1);
    ///     Ok(())
    /// }
    /// ```
    ///
    /// # Proved
    ///
    /// The result is the least member, which is in the range.
    ///
    /// ```text
    /// requires { HasSome (Covers self.now) }
    /// ensures member { Covers self.now (B.value result) }
    /// ensures least { (z : ℤ) → Covers self.now z → B.value result ≤ℤ z }
    /// ensures in_range { IsBetween B.whole (B.value result) }
    /// ```
    ///
    /// Words: [`HasSome`](crate::definitions#HasSome), [`Covers`](crate::definitions#Covers), [`IsBetween`](crate::definitions#IsBetween).
    #[cfg_attr(debug_assertions, track_caller)]
    fn lower(&self) -> B {
        debug_assert!({ #[allow(unused_imports)] use crate::proved::ivl_interval::ops::*; !self.is_empty() }, "{}", "the condition of `lower` is broken: !self.is_empty()");
        let first = self.intervals[0];
        first.lower()
    }

    /// Returns the greatest member: the end of the last run. The caller must ensure that the set is
    /// not empty. Check with `is_empty`. `O(1)`. Does not allocate.
    ///
    /// ```
    /// use intervallum::proved::examples::*;
    ///
    /// fn main() -> Result<(), std::boxed::Box<dyn std::error::Error>> {
    ///     let alloc = Global;
    ///     let a: IntervalSet<i32> = [(1, 2), (5, 6)].to_interval_set(alloc)?;
    ///     assert!(!a.is_empty() && a.upper() == 6);
    ///     Ok(())
    /// }
    /// ```
    ///
    /// # Proved
    ///
    /// The result is the greatest member, which is in the range.
    ///
    /// ```text
    /// requires { HasSome (Covers self.now) }
    /// ensures member { Covers self.now (B.value result) }
    /// ensures greatest { (z : ℤ) → Covers self.now z → z ≤ℤ B.value result }
    /// ensures in_range { IsBetween B.whole (B.value result) }
    /// ```
    ///
    /// Words: [`HasSome`](crate::definitions#HasSome), [`Covers`](crate::definitions#Covers), [`IsBetween`](crate::definitions#IsBetween).
    #[cfg_attr(debug_assertions, track_caller)]
    fn upper(&self) -> B {
        debug_assert!({ #[allow(unused_imports)] use crate::proved::ivl_interval::ops::*; !self.is_empty() }, "{}", "the condition of `upper` is broken: !self.is_empty()");
        let last = self.intervals[self.intervals.len() - 1];
        last.upper()
    }
}

/// Proved, with these words of the trait:
///
/// ```text
/// members = { Covers }
/// ```
///
/// Words: [`Covers`](crate::definitions#Covers).
impl<B: Width> IsSingleton for IntervalSet<B> {
    /// Returns true exactly when the set has one member and no other. `O(1)`. Does not allocate.
    ///
    /// ```
    /// use intervallum::proved::examples::*;
    ///
    /// fn main() -> Result<(), std::boxed::Box<dyn std::error::Error>> {
    ///     let alloc = Global;
    ///     let a = IntervalSet::new(alloc, 1, 2)?;
    ///     assert!(!a.is_singleton() && IntervalSet::new(alloc, 5, 5)?.is_singleton());
    ///     Ok(())
    /// }
    /// ```
    ///
    /// # Proved
    ///
    /// What [`IsSingleton::is_singleton`] says, by the words of the type.
    fn is_singleton(&self) -> bool {
        if self.intervals.len() != 1 {
            return false;
        }
        self.intervals[0].is_singleton()
    }
}
