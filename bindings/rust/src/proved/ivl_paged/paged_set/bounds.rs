// Written by bindings/rust/extract from crates/ivl_paged/src/paged_set/bounds.rt.
//! The set of the range, the least and the greatest member, and the interval between them.

#[allow(unused_imports)]
use crate::rattle::prelude::*;
use super::PagedSet;
use crate::proved::intervallum::interval::Interval;
use crate::proved::intervallum::interval_set::IntervalSet;
use crate::proved::intervallum::ops::{Bounded, Empty, Range};
use crate::proved::intervallum::width::Width;
use crate::rattle::std::alloc::{AllocError, Global};

impl<B: Width> PagedSet<B> {
    /// Returns the range of `B`, as one run. `O(1)`. Allocates one page. Fails only if allocation
    /// fails.
    ///
    /// ```
    /// use intervallum::proved::examples::*;
    ///
    /// fn main() -> Result<(), std::boxed::Box<dyn std::error::Error>> {
    ///     let alloc = Global;
    ///     let bytes = PagedSet::<u8>::whole(alloc)?;
    ///     assert!(bytes.contains(&0) && bytes.contains(&254) && !bytes.contains(&255));
    ///     Ok(())
    /// }
    /// ```
    ///
    /// # Proved
    ///
    /// On success, the result is the whole range, as one run.
    ///
    /// ```text
    /// ensures { IfOk result (λ L. L ≡ B.whole ∷ []) }
    /// ```
    pub fn whole(alloc: Global) -> Result<Self, AllocError> {
        Self::of_set(&IntervalSet::whole(alloc)?)
    }

    /// Returns the least member, or `None` if there is none. `O(1)`. Does not allocate.
    ///
    /// ```
    /// use intervallum::proved::examples::*;
    ///
    /// fn main() -> Result<(), std::boxed::Box<dyn std::error::Error>> {
    ///     let alloc = Global;
    ///     let mut a = PagedSet::new(alloc);
    ///     assert_eq!(a.first(), None);
    ///     a.insert_interval(Interval::new(1, 5))?;
    ///     assert_eq!(a.first(), Some(1));
    ///     Ok(())
    /// }
    /// ```
    ///
    /// # Proved
    ///
    /// The result is the least member, which is in the range, or `None` if there is none.
    ///
    /// ```text
    /// ensures least { MatchOption result (HasNone (Covers self.now)) (λ x. IsLeast (B.value x) (Covers self.now)) }
    /// ensures in_range { IfSome result (λ x. IsBetween B.whole (B.value x)) }
    /// ```
    ///
    /// Words: [`HasNone`](crate::definitions#HasNone), [`Covers`](crate::definitions#Covers), [`IsLeast`](crate::definitions#IsLeast), [`IsBetween`](crate::definitions#IsBetween).
    pub fn first(&self) -> Option<B> {
        if self.pages.is_empty() {
            return None;
        }
        Some(self.pages.head(0))
    }

    /// Returns the greatest member, or `None` if there is none. `O(1)`. Does not allocate.
    ///
    /// ```
    /// use intervallum::proved::examples::*;
    ///
    /// fn main() -> Result<(), std::boxed::Box<dyn std::error::Error>> {
    ///     let alloc = Global;
    ///     let mut a = PagedSet::new(alloc);
    ///     assert_eq!(a.last(), None);
    ///     a.insert_interval(Interval::new(1, 5))?;
    ///     assert_eq!(a.last(), Some(5));
    ///     Ok(())
    /// }
    /// ```
    ///
    /// # Proved
    ///
    /// The result is the greatest member, which is in the range, or `None` if there is none.
    ///
    /// ```text
    /// ensures greatest { MatchOption result (HasNone (Covers self.now)) (λ x. IsGreatest (B.value x) (Covers self.now)) }
    /// ensures in_range { IfSome result (λ x. IsBetween B.whole (B.value x)) }
    /// ```
    ///
    /// Words: [`HasNone`](crate::definitions#HasNone), [`Covers`](crate::definitions#Covers), [`IsGreatest`](crate::definitions#IsGreatest), [`IsBetween`](crate::definitions#IsBetween).
    pub fn last(&self) -> Option<B> {
        let count = self.pages.len();
        if count == 0 {
            return None;
        }
        Some(self.pages.page(count - 1).set().upper())
    }

    /// Returns the least interval that holds the members: from the least to the greatest, or empty
    /// if there is none. `O(1)`. Does not allocate.
    ///
    /// ```
    /// use intervallum::proved::examples::*;
    ///
    /// fn main() -> Result<(), std::boxed::Box<dyn std::error::Error>> {
    ///     let alloc = Global;
    ///     let mut a = PagedSet::new(alloc);
    ///     assert!(a.hull().is_empty());
    ///     assert!(a.insert(1)? && a.insert(5)?);
    ///     assert!(a.hull() == Interval::new(1, 5));
    ///     Ok(())
    /// }
    /// ```
    ///
    /// # Proved
    ///
    /// The result is the least interval that holds all members.
    ///
    /// ```text
    /// ensures { IsHullOf result (Covers self.now) }
    /// ```
    ///
    /// Words: [`IsHullOf`](crate::definitions#IsHullOf), [`Covers`](crate::definitions#Covers).
    pub fn hull(&self) -> Interval<B> {
        let count = self.pages.len();
        if count == 0 {
            return Interval::empty();
        }
        let lower = self.pages.head(0);
        Interval::new(lower, self.pages.page(count - 1).set().upper())
    }
}

impl<B: Width> Bounded for PagedSet<B> {
    /// Returns the least member. The caller must ensure that the set is not empty. Check with
    /// `is_empty`. `O(1)`. Does not allocate.
    ///
    /// ```
    /// use intervallum::proved::examples::*;
    ///
    /// fn main() -> Result<(), std::boxed::Box<dyn std::error::Error>> {
    ///     let alloc = Global;
    ///     let list: IntervalSet<i32> = [(1, 2), (5, 6)].to_interval_set(alloc)?;
    ///     let a = PagedSet::of_set(&list)?;
    ///     assert!(!a.is_empty() && a.lower() == 1);
    ///     Ok(())
    /// }
    /// ```
    ///
    /// # Proved
    ///
    /// The result is the least member, which is in the range.
    ///
    /// ```text
    /// requires { HasSome (Covers self.now) }
    /// ensures member { Covers self.now (B.value result) }
    /// ensures least { (z : ℤ) → Covers self.now z → B.value result ≤ℤ z }
    /// ensures in_range { IsBetween B.whole (B.value result) }
    /// ```
    ///
    /// Words: [`HasSome`](crate::definitions#HasSome), [`Covers`](crate::definitions#Covers), [`IsBetween`](crate::definitions#IsBetween).
    #[cfg_attr(debug_assertions, track_caller)]
    fn lower(&self) -> B {
        debug_assert!({ #[allow(unused_imports)] use crate::proved::ivl_interval::ops::*; !self.is_empty() }, "{}", "the condition of `lower` is broken: !self.is_empty()");
        self.first().unwrap()
    }

    /// Returns the greatest member. The caller must ensure that the set is not empty. Check with
    /// `is_empty`. `O(1)`. Does not allocate.
    ///
    /// ```
    /// use intervallum::proved::examples::*;
    ///
    /// fn main() -> Result<(), std::boxed::Box<dyn std::error::Error>> {
    ///     let alloc = Global;
    ///     let list: IntervalSet<i32> = [(1, 2), (5, 6)].to_interval_set(alloc)?;
    ///     let a = PagedSet::of_set(&list)?;
    ///     assert!(!a.is_empty() && a.upper() == 6);
    ///     Ok(())
    /// }
    /// ```
    ///
    /// # Proved
    ///
    /// The result is the greatest member, which is in the range.
    ///
    /// ```text
    /// requires { HasSome (Covers self.now) }
    /// ensures member { Covers self.now (B.value result) }
    /// ensures greatest { (z : ℤ) → Covers self.now z → z ≤ℤ B.value result }
    /// ensures in_range { IsBetween B.whole (B.value result) }
    /// ```
    ///
    /// Words: [`HasSome`](crate::definitions#HasSome), [`Covers`](crate::definitions#Covers), [`IsBetween`](crate::definitions#IsBetween).
    #[cfg_attr(debug_assertions, track_caller)]
    fn upper(&self) -> B {
        debug_assert!({ #[allow(unused_imports)] use crate::proved::ivl_interval::ops::*; !self.is_empty() }, "{}", "the condition of `upper` is broken: !self.is_empty()");
        self.last().unwrap()
    }
}
