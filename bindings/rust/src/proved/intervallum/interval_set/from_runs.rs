// Written by bindings/rust/extract from crates/intervallum/src/interval_set/from_runs.rt.
//! A set of a list that is known to be that of its runs, and the test of such a list.

#[allow(unused_imports)]
use crate::rattle::prelude::*;
use super::IntervalSet;
use super::run_lists::{are_in_whole, are_runs, size_of_runs};
use crate::proved::intervallum::interval::Interval;
use crate::proved::intervallum::width::Width;

impl<B: Width> IntervalSet<B> {
    /// Returns the set of the runs of a list, in the memory of the list, which is not shrunk.
    ///
    /// The caller must ensure that no interval is empty, that they ascend, and that a number is
    /// missing between neighbours. Check with `IntervalSet::are_runs(&runs)`. Any other list is for
    /// `coalesce`, which makes that test itself.
    ///
    /// `O(n)` for `n` runs, whose sizes it adds up. Does not allocate.
    ///
    /// ```
    /// use intervallum::proved::examples::*;
    ///
    /// fn main() -> Result<(), std::boxed::Box<dyn std::error::Error>> {
    ///     let alloc = Global;
    ///     let mut runs = Vec::new(alloc);
    ///     runs.push(Interval::new(1, 2))?;
    ///     runs.push(Interval::new(5, 6))?;
    ///     assert!(IntervalSet::from_runs(runs) == [(1, 2), (5, 6)].to_interval_set(alloc)?);
    ///     Ok(())
    /// }
    /// ```
    ///
    /// # Proved
    ///
    /// The runs of the result are those of the list.
    ///
    /// ```text
    /// requires { IsMaximal runs.items }
    /// ensures { result ≡ runs.items }
    /// ```
    ///
    /// Words: [`IsMaximal`](crate::definitions#IsMaximal).
    #[cfg_attr(debug_assertions, track_caller)]
    pub fn from_runs(runs: Vec<Interval<B>>) -> Self {
        debug_assert!({ #[allow(unused_imports)] use crate::proved::ivl_interval::ops::*; Self::are_runs(&runs) }, "{}", "the condition of `from_runs` is broken: Self::are_runs(&runs)");
        are_in_whole(&runs);
        let size = size_of_runs(&runs);
        Self::of_runs(runs, size)
    }

    /// Returns true exactly when intervals are the runs of a set: none is empty, they ascend, and a
    /// number is missing between neighbours. `O(n)` for `n` intervals. Does not allocate.
    ///
    /// ```
    /// use intervallum::proved::examples::*;
    ///
    /// fn main() -> Result<(), std::boxed::Box<dyn std::error::Error>> {
    ///     let alloc = Global;
    ///     assert!(IntervalSet::are_runs(&[Interval::new(1, 2), Interval::new(4, 4)]));
    ///     assert!(!IntervalSet::are_runs(&[Interval::new(1, 2), Interval::new(3, 4)]));
    ///     Ok(())
    /// }
    /// ```
    ///
    /// # Proved
    ///
    /// True exactly when the intervals of the list are not empty, are ascending, and neither overlap nor touch.
    ///
    /// ```text
    /// ensures { IsTrue result ↔ IsMaximal list.now }
    /// ```
    ///
    /// Words: [`IsMaximal`](crate::definitions#IsMaximal).
    pub fn are_runs(list: &[Interval<B>]) -> bool {
        are_runs(list)
    }
}
