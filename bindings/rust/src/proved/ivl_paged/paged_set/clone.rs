// Written by bindings/rust/extract from crates/ivl_paged/src/paged_set/clone.rt.
//! Copies of a set.

#[allow(unused_imports)]
use crate::rattle::prelude::*;
use super::PagedSet;
use crate::proved::ivl_paged::page_list::PageList;
use crate::proved::ivl_paged::pages::copy_of;
use crate::proved::intervallum::width::Width;
use crate::rattle::std::alloc::AllocError;

impl<B: Width> PagedSet<B> {
    /// Returns a copy of the set, page by page. A page of 64 runs or more has room for 128. `O(n)`. Fails
    /// only if allocation fails.
    ///
    /// ```
    /// use intervallum::proved::examples::*;
    ///
    /// fn main() -> Result<(), std::boxed::Box<dyn std::error::Error>> {
    ///     let alloc = Global;
    ///     let mut a = PagedSet::new(alloc);
    ///     a.insert_interval(Interval::new(1, 5))?;
    ///     assert!(a.try_clone()? == a);
    ///     Ok(())
    /// }
    /// ```
    ///
    /// # Proved
    ///
    /// On success, the result is the same set.
    ///
    /// ```text
    /// ensures { IfOk result (λ L. L ≡ self.now) }
    /// ```
    pub fn try_clone(&self) -> Result<Self, AllocError> {
        self.in_whole();
        let mut pages = PageList::with_capacity(self.alloc, self.pages.len())?;
        for page in self.pages.as_slice() {
            pages.push(copy_of(self.alloc, page)?)?;
        }
        Ok(PagedSet {
            alloc: self.alloc,
            pages,
        })
    }
}
