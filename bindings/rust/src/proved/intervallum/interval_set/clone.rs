// Written by bindings/rust/extract from crates/intervallum/src/interval_set/clone.rt.
//! Copies of a set.

#[allow(unused_imports)]
use crate::rattle::prelude::*;
use super::IntervalSet;
use crate::proved::intervallum::width::Width;
use crate::rattle::std::alloc::AllocError;

impl<B: Width> IntervalSet<B> {
    /// Returns a copy of the set. `O(n)`. Reserves `n` runs. Fails only if allocation fails.
    ///
    /// ```
    /// use intervallum::proved::examples::*;
    ///
    /// fn main() -> Result<(), std::boxed::Box<dyn std::error::Error>> {
    ///     let alloc = Global;
    ///     let a = IntervalSet::new(alloc, 1, 2)?;
    ///     assert!(a.try_clone()? == a);
    ///     Ok(())
    /// }
    /// ```
    ///
    /// # Proved
    ///
    /// On success, the result is the same set.
    ///
    /// ```text
    /// ensures { IfOk result (λ L. L ≡ self.now) }
    /// ```
    pub fn try_clone(&self) -> Result<Self, AllocError> {
        let intervals = Vec::from_slice(self.allocator(), &self.intervals)?;
        Ok(IntervalSet {
            intervals,
            size: self.size,
        })
    }

    /// Makes the set equal to another, in the memory that it has where that suffices. `O(n)`.
    /// Reserves `n` runs if its capacity is less, and keeps the capacity otherwise. Fails only if
    /// allocation fails; the set is then unchanged.
    ///
    /// ```
    /// use intervallum::proved::examples::*;
    ///
    /// fn main() -> Result<(), std::boxed::Box<dyn std::error::Error>> {
    ///     let alloc = Global;
    ///     let a = IntervalSet::new(alloc, 1, 2)?;
    ///     let mut b = IntervalSet::new(alloc, 5, 9)?;
    ///     b.try_clone_from(&a)?;
    ///     assert!(b == a);
    ///     Ok(())
    /// }
    /// ```
    #[inline(always)]
    ///
    /// # Proved
    ///
    /// On success, the set is the same as `other`; on an error it is unchanged.
    ///
    /// ```text
    /// ensures same { OnOk result (self.new ≡ other.now) }
    /// ensures err { OnErr result (self.new ≡ self.old) }
    /// ```
    pub fn try_clone_from(&mut self, other: &IntervalSet<B>) -> Result<(), AllocError> {
        let missing = other.intervals.len().saturating_sub(self.intervals.len());
        self.intervals.reserve(missing)?;
        self.intervals.clear();
        self.intervals.extend_from_slice(&other.intervals).unwrap();
        self.size = other.size;
        Ok(())
    }

    /// A copy of the set with room for one more run.
    pub(super) fn copy_with_room(&self) -> Result<Self, AllocError> {
        let room = self.intervals.len().saturating_add(1);
        let mut intervals = Vec::with_capacity(self.allocator(), room)?;
        intervals.extend_from_slice(&self.intervals).unwrap();
        Ok(IntervalSet {
            intervals,
            size: self.size,
        })
    }
}
