// Written by bindings/rust/extract from crates/ivl_paged/src/paged_set/set_operands.rt.
//! Set operations with a paged set.

#[allow(unused_imports)]
use crate::rattle::prelude::*;
use super::PagedSet;
use crate::proved::ivl_paged::combine::{Operation, combined};
use crate::proved::ivl_paged::gaps::gaps_of;
use crate::proved::ivl_paged::parts::{Parts, end_of_window, gather_pages};
use crate::proved::intervallum::interval::Interval;
use crate::proved::intervallum::ops::{Complement, Difference, Intersection, SymmetricDifference, Union};
use crate::proved::intervallum::width::Width;
use crate::rattle::std::alloc::AllocError;

impl<B: Width> PagedSet<B> {
    /// What an operation makes of the set and another one.
    pub(super) fn combined_with<T: Parts<B>>(
        &self,
        other: &T,
        op: Operation,
    ) -> Result<PagedSet<B>, AllocError> {
        self.in_whole();
        let pages = combined(self.alloc, self, other, op)?;
        Ok(PagedSet {
            alloc: self.alloc,
            pages,
        })
    }
}

/// Proved, with these words of the trait:
///
/// ```text
/// runs = { λ L. L }
/// ```
impl<B: Width> Parts<B> for PagedSet<B> {
    fn end_from(&self, lower: B) -> B {
        end_of_window(&self.pages, lower)
    }

    fn gather(&self, window: &Interval<B>, list: &mut Vec<Interval<B>>) -> Result<(), AllocError> {
        gather_pages(&self.pages, window, list)
    }
}

/// Proved, with these words of the trait:
///
/// ```text
/// members = { Covers }
/// other_members = { Covers }
/// can_unite = { λ _ _. ⊤ }
/// answers = { λ r S. IfOk r (λ L. IsRunsOf L S) }
/// ```
///
/// Words: [`Covers`](crate::definitions#Covers), [`IsRunsOf`](crate::definitions#IsRunsOf).
impl<B: Width> Union<PagedSet<B>> for PagedSet<B> {
    type Output = Result<PagedSet<B>, AllocError>;

    /// Returns the members of either set. `O(n + m)`. Goes by windows in which each set has about 16
    /// pages: allocates the pages of the result, and lists of the runs in one window. Fails only if
    /// allocation fails.
    ///
    /// ```
    /// use intervallum::proved::examples::*;
    ///
    /// fn main() -> Result<(), std::boxed::Box<dyn std::error::Error>> {
    ///     let alloc = Global;
    ///     let (mut a, mut b) = (PagedSet::new(alloc), PagedSet::new(alloc));
    ///     a.insert_interval(Interval::new(1, 5))?;
    ///     b.insert_interval(Interval::new(4, 9))?;
    ///     assert!(a.union(&b)?.to_set()? == IntervalSet::new(alloc, 1, 9)?);
    ///     Ok(())
    /// }
    /// ```
    ///
    /// # Proved
    ///
    /// On success, the members are exactly those of either set, in at most as many runs as the two have together.
    ///
    /// ```text
    /// ensures members { IfOk result (λ L. IsRunsOf L (Union (Covers self.now) (Covers other.now))) }
    /// ensures runs_at_most { IfOk result (λ L. length L ≤ length self.now + length other.now) }
    /// ```
    ///
    /// Words: [`IsRunsOf`](crate::definitions#IsRunsOf), [`Union`](crate::definitions#Union), [`Covers`](crate::definitions#Covers).
    fn union(&self, other: &PagedSet<B>) -> Result<PagedSet<B>, AllocError> {
        other.in_whole();
        self.combined_with(other, Operation::Either)
    }
}

/// Proved, with these words of the trait:
///
/// ```text
/// members = { Covers }
/// other_members = { Covers }
/// answers = { λ r S. IfOk r (λ L. IsRunsOf L S) }
/// ```
///
/// Words: [`Covers`](crate::definitions#Covers), [`IsRunsOf`](crate::definitions#IsRunsOf).
impl<B: Width> Intersection<PagedSet<B>> for PagedSet<B> {
    type Output = Result<PagedSet<B>, AllocError>;

    /// Returns the members of both sets. `O(n + m)`. Goes by windows in which each set has about 16
    /// pages: allocates the pages of the result, and lists of the runs in one window. Fails only if
    /// allocation fails.
    ///
    /// ```
    /// use intervallum::proved::examples::*;
    ///
    /// fn main() -> Result<(), std::boxed::Box<dyn std::error::Error>> {
    ///     let alloc = Global;
    ///     let (mut a, mut b) = (PagedSet::new(alloc), PagedSet::new(alloc));
    ///     a.insert_interval(Interval::new(1, 5))?;
    ///     b.insert_interval(Interval::new(4, 9))?;
    ///     assert!(a.intersection(&b)?.to_set()? == IntervalSet::new(alloc, 4, 5)?);
    ///     Ok(())
    /// }
    /// ```
    ///
    /// # Proved
    ///
    /// On success, the members are exactly those of both sets, in at most as many runs as the two have together.
    ///
    /// ```text
    /// ensures members { IfOk result (λ L. IsRunsOf L (Intersection (Covers self.now) (Covers other.now))) }
    /// ensures runs_at_most { IfOk result (λ L. length L ≤ length self.now + length other.now) }
    /// ```
    ///
    /// Words: [`IsRunsOf`](crate::definitions#IsRunsOf), [`Intersection`](crate::definitions#Intersection), [`Covers`](crate::definitions#Covers).
    fn intersection(&self, other: &PagedSet<B>) -> Result<PagedSet<B>, AllocError> {
        other.in_whole();
        self.combined_with(other, Operation::Both)
    }
}

/// Proved, with these words of the trait:
///
/// ```text
/// members = { Covers }
/// other_members = { Covers }
/// answers = { λ r S. IfOk r (λ L. IsRunsOf L S) }
/// ```
///
/// Words: [`Covers`](crate::definitions#Covers), [`IsRunsOf`](crate::definitions#IsRunsOf).
impl<B: Width> Difference<PagedSet<B>> for PagedSet<B> {
    type Output = Result<PagedSet<B>, AllocError>;

    /// Returns the members that are not in `other`. `O(n + m)`. Goes by windows in which each set has
    /// about 16 pages: allocates the pages of the result, and lists of the runs in one window. Fails
    /// only if allocation fails.
    ///
    /// ```
    /// use intervallum::proved::examples::*;
    ///
    /// fn main() -> Result<(), std::boxed::Box<dyn std::error::Error>> {
    ///     let alloc = Global;
    ///     let (mut a, mut b) = (PagedSet::new(alloc), PagedSet::new(alloc));
    ///     a.insert_interval(Interval::new(1, 5))?;
    ///     b.insert_interval(Interval::new(4, 9))?;
    ///     assert!(a.difference(&b)?.to_set()? == IntervalSet::new(alloc, 1, 3)?);
    ///     Ok(())
    /// }
    /// ```
    ///
    /// # Proved
    ///
    /// On success, the members are exactly those of the set that are not in `other`, in at most as many runs as the two have together.
    ///
    /// ```text
    /// ensures members { IfOk result (λ L. IsRunsOf L (Without (Covers self.now) (Covers other.now))) }
    /// ensures runs_at_most { IfOk result (λ L. length L ≤ length self.now + length other.now) }
    /// ```
    ///
    /// Words: [`IsRunsOf`](crate::definitions#IsRunsOf), [`Without`](crate::definitions#Without), [`Covers`](crate::definitions#Covers).
    fn difference(&self, other: &PagedSet<B>) -> Result<PagedSet<B>, AllocError> {
        other.in_whole();
        self.combined_with(other, Operation::FirstAlone)
    }
}

/// Proved, with these words of the trait:
///
/// ```text
/// members = { Covers }
/// other_members = { Covers }
/// can_unite = { λ _ _. ⊤ }
/// answers = { λ r S. IfOk r (λ L. IsRunsOf L S) }
/// ```
///
/// Words: [`Covers`](crate::definitions#Covers), [`IsRunsOf`](crate::definitions#IsRunsOf).
impl<B: Width> SymmetricDifference<PagedSet<B>> for PagedSet<B> {
    type Output = Result<PagedSet<B>, AllocError>;

    /// Returns the members of exactly one of the sets. `O(n + m)`. Goes by windows in which each set
    /// has about 16 pages: allocates the pages of the result, and lists of the runs in one window.
    /// Fails only if allocation fails.
    ///
    /// ```
    /// use intervallum::proved::examples::*;
    ///
    /// fn main() -> Result<(), std::boxed::Box<dyn std::error::Error>> {
    ///     let alloc = Global;
    ///     let (mut a, mut b) = (PagedSet::new(alloc), PagedSet::new(alloc));
    ///     a.insert_interval(Interval::new(1, 5))?;
    ///     b.insert_interval(Interval::new(4, 9))?;
    ///     assert!(a.symmetric_difference(&b)?.to_set()? == [(1, 3), (6, 9)].to_interval_set(alloc)?);
    ///     Ok(())
    /// }
    /// ```
    ///
    /// # Proved
    ///
    /// On success, the members are exactly those of either set that are not in both, in at most as many runs as the two have together.
    ///
    /// ```text
    /// ensures members { IfOk result (λ L. IsRunsOf L (SymmetricDifference (Covers self.now) (Covers other.now))) }
    /// ensures runs_at_most { IfOk result (λ L. length L ≤ length self.now + length other.now) }
    /// ```
    ///
    /// Words: [`IsRunsOf`](crate::definitions#IsRunsOf), [`SymmetricDifference`](crate::definitions#SymmetricDifference), [`Covers`](crate::definitions#Covers).
    fn symmetric_difference(&self, other: &PagedSet<B>) -> Result<PagedSet<B>, AllocError> {
        other.in_whole();
        self.combined_with(other, Operation::OneAlone)
    }
}

/// Proved, with these words of the trait:
///
/// ```text
/// whole = { B.whole }
/// members = { Covers }
/// answers = { λ r S. IfOk r (λ L. IsRunsOf L S) }
/// ```
///
/// Words: [`Covers`](crate::definitions#Covers), [`IsRunsOf`](crate::definitions#IsRunsOf).
impl<B: Width> Complement for PagedSet<B> {
    type Output = Result<PagedSet<B>, AllocError>;

    /// Returns the complement within the range of the type. `O(n)`. Goes page by page, and allocates the
    /// pages of the result, which have no room for more runs: the first edit of each moves its runs. Fails
    /// only if allocation fails.
    ///
    /// ```
    /// use intervallum::proved::examples::*;
    ///
    /// fn main() -> Result<(), std::boxed::Box<dyn std::error::Error>> {
    ///     let alloc = Global;
    ///     let mut a = PagedSet::new(alloc);
    ///     a.insert_interval(Interval::new(10u8, 254))?;
    ///     assert!(a.complement()?.to_set()? == IntervalSet::new(alloc, 0, 9)?);
    ///     Ok(())
    /// }
    /// ```
    ///
    /// # Proved
    ///
    /// On success, the members are exactly the numbers of the range that are not in the set, in at most one run more than the set has.
    ///
    /// ```text
    /// ensures members { IfOk result (λ L. IsRunsOf L (Complement B.whole (Covers self.now))) }
    /// ensures runs_at_most { IfOk result (λ L. length L ≤ length self.now + 1) }
    /// ```
    ///
    /// Words: [`IsRunsOf`](crate::definitions#IsRunsOf), [`Complement`](crate::definitions#Complement), [`Covers`](crate::definitions#Covers).
    fn complement(&self) -> Result<PagedSet<B>, AllocError> {
        self.in_whole();
        let pages = gaps_of(self.alloc, &self.pages)?;
        Ok(PagedSet {
            alloc: self.alloc,
            pages,
        })
    }
}
