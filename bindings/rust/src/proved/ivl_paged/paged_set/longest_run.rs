// Written by bindings/rust/extract from crates/ivl_paged/src/paged_set/longest_run.rt.
//! The longest run.

#[allow(unused_imports)]
use crate::rattle::prelude::*;
use super::PagedSet;
use crate::proved::ivl_paged::longests::longest_of;
use crate::proved::intervallum::interval::Interval;
use crate::proved::intervallum::width::Width;

impl<B: Width> PagedSet<B> {
    /// Returns the longest run, and the lowest of these if there are several; `None` if the set is empty.
    ///
    /// Reads how long the longest run of each page is, and scans one page: `O(n / page)`. Does not allocate.
    ///
    /// ```
    /// use intervallum::proved::examples::*;
    ///
    /// fn main() -> Result<(), std::boxed::Box<dyn std::error::Error>> {
    ///     let alloc = Global;
    ///     let list: IntervalSet<i32> = [(1, 2), (5, 9), (12, 16)].to_interval_set(alloc)?;
    ///     let free = PagedSet::of_set(&list)?;
    ///     assert!(free.longest_run() == Some(Interval::new(5, 9)));
    ///     Ok(())
    /// }
    /// ```
    ///
    /// # Proved
    ///
    /// The result is the lowest of the longest runs, or `None` if there is no run.
    ///
    /// ```text
    /// ensures run { MatchOption result (self.now ≡ []) (λ run. IsRunWith run.0 (Covers self.now) run) }
    /// ensures longest { IfSome result (λ run. (n : ℕ) (v : ℤ) → FitsAt n (Covers self.now) v → n ≤ width_of run) }
    /// ensures lowest { IfSome result (λ run. IsFirstFit (width_of run) (Covers self.now) run) }
    /// ```
    ///
    /// Words: [`IsRunWith`](crate::definitions#IsRunWith), [`Covers`](crate::definitions#Covers), [`FitsAt`](crate::definitions#FitsAt), [`width_of`](crate::definitions#width_of), [`IsFirstFit`](crate::definitions#IsFirstFit).
    pub fn longest_run(&self) -> Option<Interval<B>> {
        if self.pages.is_empty() {
            return None;
        }
        // the first page has a member, and so has the longest run
        self.pages.head(0);
        self.first_fit(longest_of(self.pages.as_slice()))
    }
}
