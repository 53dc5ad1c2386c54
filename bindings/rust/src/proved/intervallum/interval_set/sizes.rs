// Written by bindings/rust/extract from crates/intervallum/src/interval_set/sizes.rt.
//! How many members two sets have together, in common, and apart, without making a set.

#[allow(unused_imports)]
use crate::rattle::prelude::*;
use super::IntervalSet;
use super::builder::grown;
use super::lopsided::{common_size_with_few, is_far_shorter};
use crate::proved::intervallum::ops::Cardinality;
use crate::proved::intervallum::steps::{Probes, Walk, common_size};
use crate::proved::intervallum::width::{SizeNumber, Width};

impl<B: Width> IntervalSet<B> {
    /// Returns the number of members of both sets. `O(n + m)`. Never overflows. Does not allocate.
    ///
    /// If one set has far fewer runs, searches for each of its `k` runs among the `n` of the other,
    /// from where the last search ended: `O(k log n)`, plus a scan of the runs that these overlap.
    ///
    /// ```
    /// use intervallum::proved::examples::*;
    ///
    /// fn main() -> Result<(), std::boxed::Box<dyn std::error::Error>> {
    ///     let alloc = Global;
    ///     let (a, b) = (IntervalSet::new(alloc, 1, 5)?, IntervalSet::new(alloc, 4, 9)?);
    ///     assert_eq!(a.intersection_size(&b), 2u32);
    ///     Ok(())
    /// }
    /// ```
    ///
    /// # Proved
    ///
    /// The result is the number of members of both sets.
    ///
    /// ```text
    /// ensures { IsCountOf (B.Output.size result) (Intersection (Covers self.now) (Covers other.now)) }
    /// ```
    ///
    /// Words: [`IsCountOf`](crate::definitions#IsCountOf), [`Intersection`](crate::definitions#Intersection), [`Covers`](crate::definitions#Covers).
    pub fn intersection_size(&self, other: &IntervalSet<B>) -> B::Output {
        if is_far_shorter(self, other) {
            common_size_with_few(self, other, &mut Probes::new(other))
        } else if is_far_shorter(other, self) {
            common_size_with_few(other, self, &mut Probes::new(self))
        } else {
            common_size(Walk::new(self), Walk::new(other))
        }
    }

    /// Returns the number of members that are not in `other`. `O(n + m)`, or if one set has far fewer
    /// runs, as [`IntervalSet::intersection_size`]. Never overflows. Does not allocate.
    ///
    /// ```
    /// use intervallum::proved::examples::*;
    ///
    /// fn main() -> Result<(), std::boxed::Box<dyn std::error::Error>> {
    ///     let alloc = Global;
    ///     let (a, b) = (IntervalSet::new(alloc, 1, 5)?, IntervalSet::new(alloc, 4, 9)?);
    ///     assert_eq!(a.difference_size(&b), 3u32);
    ///     Ok(())
    /// }
    /// ```
    ///
    /// # Proved
    ///
    /// The result is the number of members that are not in `other`.
    ///
    /// ```text
    /// ensures { IsCountOf (B.Output.size result) (Without (Covers self.now) (Covers other.now)) }
    /// ```
    ///
    /// Words: [`IsCountOf`](crate::definitions#IsCountOf), [`Without`](crate::definitions#Without), [`Covers`](crate::definitions#Covers).
    pub fn difference_size(&self, other: &IntervalSet<B>) -> B::Output {
        let shared = self.intersection_size(other);
        self.size().checked_sub(shared).unwrap()
    }

    /// Returns the number of members of either set. `O(n + m)`, or if one set has far fewer
    /// runs, as [`IntervalSet::intersection_size`]. Never overflows. Does not allocate.
    ///
    /// ```
    /// use intervallum::proved::examples::*;
    ///
    /// fn main() -> Result<(), std::boxed::Box<dyn std::error::Error>> {
    ///     let alloc = Global;
    ///     let (a, b) = (IntervalSet::new(alloc, 1, 5)?, IntervalSet::new(alloc, 4, 9)?);
    ///     assert_eq!(a.union_size(&b), 9u32);
    ///     Ok(())
    /// }
    /// ```
    ///
    /// # Proved
    ///
    /// The result is the number of members of either set.
    ///
    /// ```text
    /// ensures { IsCountOf (B.Output.size result) (Union (Covers self.now) (Covers other.now)) }
    /// ```
    ///
    /// Words: [`IsCountOf`](crate::definitions#IsCountOf), [`Union`](crate::definitions#Union), [`Covers`](crate::definitions#Covers).
    pub fn union_size(&self, other: &IntervalSet<B>) -> B::Output {
        // members are in the range, so their number is a size
        self.in_whole();
        other.in_whole();
        let more = self.difference_size(other);
        grown::<B>(other.size(), more)
    }
}
