// Written by bindings/rust/extract from crates/intervallum/src/interval_set/push_run.rt.
//! Runs that are added behind those of a set.

#[allow(unused_imports)]
use crate::rattle::prelude::*;
use super::IntervalSet;
use super::builder::grown;
use crate::proved::intervallum::interval::Interval;
use crate::proved::intervallum::ops::Cardinality;
use crate::proved::intervallum::width::Width;
use crate::rattle::std::alloc::AllocError;

impl<B: Width> IntervalSet<B> {
    /// Adds a run behind the others.
    ///
    /// The caller must ensure that the run is not empty, that it lies above the members, and that a
    /// number is missing between them and it. Check with `run.is_empty()`, and with `last()`: the
    /// number after it must lie below `run.lower()`.
    ///
    /// Amortized `O(1)`. Allocates only if there is no capacity for the run.
    ///
    /// # Errors
    ///
    /// Fails only if allocation fails. The set is then unchanged.
    ///
    /// ```
    /// use intervallum::proved::examples::*;
    ///
    /// fn main() -> Result<(), std::boxed::Box<dyn std::error::Error>> {
    ///     let alloc = Global;
    ///     let mut a = IntervalSet::new(alloc, 1, 2)?;
    ///     a.push_run(Interval::new(5, 6))?;
    ///     assert!(a == [(1, 2), (5, 6)].to_interval_set(alloc)?);
    ///     Ok(())
    /// }
    /// ```
    ///
    /// # Proved
    ///
    /// On success, the run is added after the others; on an error the set is unchanged.
    ///
    /// ```text
    /// requires filled { run.0 ≤ℤ run.1 }
    /// requires apart { (v : ℤ) → Covers self.old v → (v +ℤ pos 1) <ℤ run.0 }
    /// ensures ok { OnOk result (self.new ≡ self.old ++ run ∷ []) }
    /// ensures err { OnErr result (self.new ≡ self.old) }
    /// ```
    ///
    /// Words: [`Covers`](crate::definitions#Covers).
    pub fn push_run(&mut self, run: Interval<B>) -> Result<(), AllocError> {
        run.in_whole();
        let size = grown::<B>(self.size, run.size());
        self.intervals.push(run)?;
        self.size = size;
        Ok(())
    }
}
