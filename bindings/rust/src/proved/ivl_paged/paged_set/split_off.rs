// Written by bindings/rust/extract from crates/ivl_paged/src/paged_set/split_off.rt.
//! A set divided in two at a value.

#[allow(unused_imports)]
use crate::rattle::prelude::*;
use super::PagedSet;
use crate::proved::ivl_paged::pages;
use crate::proved::intervallum::interval::Interval;
use crate::proved::intervallum::ops::{ShrinkLeft, Whole};
use crate::proved::intervallum::width::Width;
use crate::rattle::std::alloc::AllocError;

impl<B: Width> PagedSet<B> {
    /// Removes the members that are at least `v`, which may be any value of its type, and returns
    /// them as a set of their own. The members below `v` stay.
    ///
    /// Binary search, and a copy of the `k` runs that are returned, page by page: `O(log n + k)`.
    ///
    /// # Errors
    ///
    /// Fails only if allocation fails. The set is then unchanged.
    ///
    /// ```
    /// use intervallum::proved::examples::*;
    ///
    /// fn main() -> Result<(), std::boxed::Box<dyn std::error::Error>> {
    ///     let alloc = Global;
    ///     let list: IntervalSet<i32> = [(1, 5), (8, 9)].to_interval_set(alloc)?;
    ///     let mut a = PagedSet::of_set(&list)?;
    ///     let above = a.split_off(3)?;
    ///     assert!(a.to_set()? == IntervalSet::new(alloc, 1, 2)?);
    ///     assert!(above.to_set()? == [(3, 5), (8, 9)].to_interval_set(alloc)?);
    ///     Ok(())
    /// }
    /// ```
    ///
    /// # Proved
    ///
    /// On success, the result has exactly the members that are at least `v`, and the set keeps exactly those below `v`; on an error it is unchanged.
    ///
    /// ```text
    /// ensures above { IfOk result (λ L. IsRunsOf L (AtLeast (B.value v) (Covers self.old))) }
    /// ensures below { OnOk result (IsRunsOf self.new (Below (B.value v) (Covers self.old))) }
    /// ensures err { OnErr result (self.new ≡ self.old) }
    /// ```
    ///
    /// Words: [`IsRunsOf`](crate::definitions#IsRunsOf), [`AtLeast`](crate::definitions#AtLeast), [`Covers`](crate::definitions#Covers), [`Below`](crate::definitions#Below).
    pub fn split_off(&mut self, v: B) -> Result<PagedSet<B>, AllocError> {
        self.in_whole();
        let above = pages::copy_above(self.alloc, &self.pages, v)?;
        // members are in the range, so the cut goes up to its end and splits no run in two
        self.remove_interval(Interval::whole().shrink_left(v))
            .unwrap();
        Ok(PagedSet {
            alloc: self.alloc,
            pages: above,
        })
    }
}
