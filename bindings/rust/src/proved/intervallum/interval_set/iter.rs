// Written by bindings/rust/extract from crates/intervallum/src/interval_set/iter.rt.
//! The runs of a set as a slice, and the facts about them.

#[allow(unused_imports)]
use crate::rattle::prelude::*;
use super::IntervalSet;
use crate::proved::intervallum::interval::Interval;
use crate::proved::intervallum::width::Width;

impl<B: Width> IntervalSet<B> {
    /// Returns the runs as a slice: non-empty intervals within the type's range, in ascending
    /// order, with a number missing between neighbours. `O(1)`. Does not allocate.
    ///
    /// ```
    /// use intervallum::proved::examples::*;
    ///
    /// fn main() -> Result<(), std::boxed::Box<dyn std::error::Error>> {
    ///     let alloc = Global;
    ///     let a: IntervalSet<i32> = [(5, 6), (1, 2)].to_interval_set(alloc)?;
    ///     assert!(a.runs().len() == 2 && a.runs()[1] == Interval::new(5, 6));
    ///     Ok(())
    /// }
    /// ```
    ///
    /// # Proved
    ///
    /// The result is the list of the runs; they are ascending, not empty, lie in the range, and neither overlap nor touch.
    ///
    /// ```text
    /// ensures same { result.now ≡ self.now }
    /// ensures runs { IsRunListIn B.whole self.now }
    /// ensures filled { All (λ run. HasSome (IsBetween run)) self.now }
    /// ```
    ///
    /// Words: [`IsRunListIn`](crate::definitions#IsRunListIn), [`HasSome`](crate::definitions#HasSome), [`IsBetween`](crate::definitions#IsBetween).
    pub fn runs(&self) -> &[Interval<B>] {
        self.iter().as_slice()
    }

    /// Does nothing: its contract states that the runs are maximal and lie in the range.
    ///
    /// ```
    /// use intervallum::proved::examples::*;
    ///
    /// fn main() -> Result<(), std::boxed::Box<dyn std::error::Error>> {
    ///     let alloc = Global;
    ///     let a: IntervalSet<i32> = IntervalSet::new(alloc, 1, 5)?;
    ///     a.in_whole(); // a proof knows from here on that the members of `a` are in the range
    ///     assert!(!a.contains(&i32::MIN));
    ///     Ok(())
    /// }
    /// ```
    ///
    /// # Proved
    ///
    /// The runs are ascending, lie in the range, and neither overlap nor touch.
    ///
    /// ```text
    /// ensures { IsRunListIn B.whole self.now }
    /// ```
    ///
    /// Words: [`IsRunListIn`](crate::definitions#IsRunListIn).
    pub fn in_whole(&self) {
        self.as_runs();
    }
}
