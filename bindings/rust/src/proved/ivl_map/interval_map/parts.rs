// Written by bindings/rust/extract from crates/ivl_map/src/interval_map/parts.rt.
//! What a map has at some of its numbers, as a map of its own.

#[allow(unused_imports)]
use crate::rattle::prelude::*;
use super::IntervalMap;
use crate::proved::ivl_map::value::MapValue;
use crate::proved::ivl_map::walks::parts_of;
use crate::proved::intervallum::interval::Interval;
use crate::proved::intervallum::interval_set::IntervalSet;
use crate::proved::intervallum::ops::Complement;
use crate::proved::intervallum::width::Width;
use crate::rattle::std::alloc::AllocError;

impl<B: Width, V: MapValue> IntervalMap<B, V> {
    /// Returns what the map has within the window, as a map of its own. `O(log n + k)`, if `k`
    /// entries have numbers of the window: copies the values of these. Fails only if an allocation or
    /// the copy of a value fails.
    ///
    /// ```
    /// use intervallum::proved::examples::*;
    ///
    /// fn main() -> Result<(), std::boxed::Box<dyn std::error::Error>> {
    ///     let alloc = Global;
    ///     let a = IntervalMap::of(alloc, Interval::new(1i32, 9), 'a')?;
    ///     assert!(a.cut_to(Interval::new(8, 20))? == IntervalMap::of(alloc, Interval::new(8, 9), 'a')?);
    ///     Ok(())
    /// }
    /// ```
    ///
    /// # Proved
    ///
    /// The numbers of the window have what the map has there, and the others nothing.
    ///
    /// ```text
    /// ensures { IfOk result (λ E. IsEntriesOf V.eq E (OnlyAt (IsBetween window) (HasAt V.eq self.now))) }
    /// ```
    ///
    /// Words: [`IsEntriesOf`](crate::definitions#IsEntriesOf), [`OnlyAt`](crate::definitions#OnlyAt), [`IsBetween`](crate::definitions#IsBetween), [`HasAt`](crate::definitions#HasAt).
    pub fn cut_to(&self, window: Interval<B>) -> Result<Self, AllocError> {
        self.in_order();
        let set = IntervalSet::of(self.allocator(), window)?;
        let entries = parts_of(self.allocator(), self.overlapping(window), set.runs())?;
        Ok(IntervalMap { entries })
    }

    /// Returns what the map has at the members of a set, as a map of its own. `O(n + m)`, if the set
    /// has `m` runs: walks both once, and copies the value of an entry once for each of its parts.
    /// Fails only if an allocation or the copy of a value fails.
    ///
    /// ```
    /// use intervallum::proved::examples::*;
    ///
    /// fn main() -> Result<(), std::boxed::Box<dyn std::error::Error>> {
    ///     let alloc = Global;
    ///     let a = IntervalMap::of(alloc, Interval::new(1i32, 9), 'a')?;
    ///     let kept = a.restrict_to(&IntervalSet::new(alloc, 8, 20)?)?;
    ///     assert!(kept == IntervalMap::of(alloc, Interval::new(8, 9), 'a')?);
    ///     Ok(())
    /// }
    /// ```
    ///
    /// # Proved
    ///
    /// The members of the set have what the map has there, and other numbers nothing.
    ///
    /// ```text
    /// ensures { IfOk result (λ E. IsEntriesOf V.eq E (OnlyAt (Covers set.now) (HasAt V.eq self.now))) }
    /// ```
    ///
    /// Words: [`IsEntriesOf`](crate::definitions#IsEntriesOf), [`OnlyAt`](crate::definitions#OnlyAt), [`Covers`](crate::definitions#Covers), [`HasAt`](crate::definitions#HasAt).
    pub fn restrict_to(&self, set: &IntervalSet<B>) -> Result<Self, AllocError> {
        self.in_order();
        let entries = parts_of(self.allocator(), &self.entries, set.runs())?;
        Ok(IntervalMap { entries })
    }

    /// Returns what the map has at the numbers that are not members of a set, as a map of its own.
    /// `O(n + m)`, if the set has `m` runs: makes the complement of the set, walks it and the map
    /// once, and copies the value of an entry once for each of its parts. Fails only if an allocation
    /// or the copy of a value fails.
    ///
    /// ```
    /// use intervallum::proved::examples::*;
    ///
    /// fn main() -> Result<(), std::boxed::Box<dyn std::error::Error>> {
    ///     let alloc = Global;
    ///     let a = IntervalMap::of(alloc, Interval::new(1i32, 9), 'a')?;
    ///     let left = a.without(&IntervalSet::new(alloc, 3, 20)?)?;
    ///     assert!(left == IntervalMap::of(alloc, Interval::new(1, 2), 'a')?);
    ///     Ok(())
    /// }
    /// ```
    ///
    /// # Proved
    ///
    /// The members of the set have nothing, and other numbers what the map has there.
    ///
    /// ```text
    /// ensures { IfOk result (λ E. IsEntriesOf V.eq E (NotAt (Covers set.now) (HasAt V.eq self.now))) }
    /// ```
    ///
    /// Words: [`IsEntriesOf`](crate::definitions#IsEntriesOf), [`NotAt`](crate::definitions#NotAt), [`Covers`](crate::definitions#Covers), [`HasAt`](crate::definitions#HasAt).
    pub fn without(&self, set: &IntervalSet<B>) -> Result<Self, AllocError> {
        self.in_order();
        let others = set.complement()?;
        self.restrict_to(&others)
    }
}
