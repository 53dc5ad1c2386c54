// Written by bindings/rust/extract from crates/ivl_paged/src/paged_set/retain.rt.
//! The runs that a test keeps.

#[allow(unused_imports)]
use crate::rattle::prelude::*;
use super::PagedSet;
use crate::proved::ivl_paged::page_list::PageList;
use crate::proved::ivl_paged::pages::{FIRST_RUNS, push_runs};
use crate::proved::intervallum::interval::Interval;
use crate::proved::intervallum::width::Width;
use crate::rattle::std::alloc::{AllocError, Global};

impl<B: Width> PagedSet<B> {
    /// Keeps the runs for whose least and greatest member `keeps` returns true, and removes the others. It is
    /// called once for each run, in ascending order.
    ///
    /// Copies the runs that stay into pages of 96 runs that have room for 128: `O(n)`. The old pages are
    /// dropped when the new ones are made.
    ///
    /// # Errors
    ///
    /// Fails only if allocation fails. The set is then unchanged, and `keeps` was not called for the runs
    /// that were left.
    ///
    /// ```
    /// use intervallum::proved::examples::*;
    ///
    /// fn main() -> Result<(), std::boxed::Box<dyn std::error::Error>> {
    ///     let alloc = Global;
    ///     let list: IntervalSet<i32> = [(1, 1), (3, 5), (8, 8), (10, 11)].to_interval_set(alloc)?;
    ///     let mut a = PagedSet::of_set(&list)?;
    ///     a.retain(|lower, upper| lower < upper)?;
    ///     assert!(a.to_set()? == [(3, 5), (10, 11)].to_interval_set(alloc)?);
    ///     Ok(())
    /// }
    /// ```
    ///
    /// # Proved
    ///
    /// On success, the set keeps exactly the runs for which `keeps`, asked of each once and in order, says true; on an error it is unchanged.
    ///
    /// ```text
    /// requires { F.IsAlwaysCallable keeps }
    /// ensures ok { OnOk result (IsFiltered (λ f run b g. F.step f (B.at run.0) (B.at run.1) b g) keeps self.old self.new) }
    /// ensures err { OnErr result (self.new ≡ self.old) }
    /// ```
    pub fn retain<F: FnMut(B, B) -> bool>(&mut self, keeps: F) -> Result<(), AllocError> {
        self.in_whole();
        let pages = self.pages_kept_by(keeps)?;
        self.pages = pages;
        Ok(())
    }

    /// Copies of the runs for whose bounds `keeps` returns true, in pages.
    fn pages_kept_by<F: FnMut(B, B) -> bool>(&self, mut keeps: F) -> Result<PageList<B>, AllocError> {
        let mut pages = PageList::new(self.alloc);
        let mut kept = Vec::new(self.alloc);
        let mut left = self.iter();
        'runs: while let Some(run) = left.next() {
            if !keeps(run.lower_bound(), run.upper_bound()) {
                continue;
            }
            push_behind(self.alloc, &mut pages, &mut kept, run)?;
        }
        push_runs(self.alloc, &mut pages, &kept)?;
        Ok(pages)
    }
}

/// Puts a run behind those of pages and of a list, which becomes a page where it then has as many as one.
fn push_behind<B: Width>(
    alloc: Global,
    pages: &mut PageList<B>,
    kept: &mut Vec<Interval<B>>,
    run: Interval<B>,
) -> Result<(), AllocError> {
    kept.push(run)?;
    if kept.len() < FIRST_RUNS {
        return Ok(());
    }
    push_runs(alloc, pages, kept.as_slice())?;
    kept.clear();
    Ok(())
}
