// Written by bindings/rust/extract from crates/ivl_paged/src/paged_set/conversions.rt.
//! A set made of a list of runs that is given away, and the list of a set that is given away.

#[allow(unused_imports)]
use crate::rattle::prelude::*;
use super::PagedSet;
use crate::proved::ivl_paged::pages;
use crate::proved::intervallum::interval_set::IntervalSet;
use crate::proved::intervallum::width::Width;
use crate::rattle::std::alloc::AllocError;

impl<B: Width> PagedSet<B> {
    /// Returns the set with the members of another, which is given away. If it has fewer than 128 runs,
    /// its list is the one page, and no run is copied: `O(1)` and a look at each for the longest; else
    /// as [`PagedSet::of_set`] does it. Fails only if allocation fails.
    ///
    /// ```
    /// use intervallum::proved::examples::*;
    ///
    /// fn main() -> Result<(), std::boxed::Box<dyn std::error::Error>> {
    ///     let alloc = Global;
    ///     let list: IntervalSet<i32> = [(1, 2), (5, 6)].to_interval_set(alloc)?;
    ///     let a = PagedSet::from_set(list)?;
    ///     assert!(a.contains(&2) && !a.contains(&3) && a.interval_count() == 2);
    ///     Ok(())
    /// }
    /// ```
    ///
    /// # Proved
    ///
    /// On success, the result has the runs of `set`.
    ///
    /// ```text
    /// ensures { IfOk result (λ L. L ≡ set) }
    /// ```
    pub fn from_set(set: IntervalSet<B>) -> Result<Self, AllocError> {
        set.in_whole();
        let alloc = set.allocator();
        let pages = pages::pages_from(alloc, set)?;
        Ok(PagedSet { alloc, pages })
    }

    /// Returns the set with its runs in one vector, and gives the pages away. A single page is the
    /// answer, and no run is copied: `O(1)`; else as [`PagedSet::to_set`] does it. Fails only if
    /// allocation fails.
    ///
    /// ```
    /// use intervallum::proved::examples::*;
    ///
    /// fn main() -> Result<(), std::boxed::Box<dyn std::error::Error>> {
    ///     let alloc = Global;
    ///     let mut a = PagedSet::new(alloc);
    ///     a.insert_interval(Interval::new(1, 9))?;
    ///     assert!(a.into_set()? == IntervalSet::new(alloc, 1, 9)?);
    ///     Ok(())
    /// }
    /// ```
    ///
    /// # Proved
    ///
    /// On success, the result has the runs of the set.
    ///
    /// ```text
    /// ensures { IfOk result (λ L. L ≡ self) }
    /// ```
    pub fn into_set(self) -> Result<IntervalSet<B>, AllocError> {
        if self.pages.len() != 1 {
            return self.to_set();
        }
        let PagedSet { alloc: _, pages } = self;
        Ok(pages.into_only().into_set())
    }
}
