// Written by bindings/rust/extract from crates/ivl_map/src/interval_map/making.rt.
//! Maps from an interval, from a list of writes, and from another map.

#[allow(unused_imports)]
use crate::rattle::prelude::*;
use super::IntervalMap;
use crate::proved::ivl_map::value::MapValue;
use crate::proved::intervallum::interval::Interval;
use crate::proved::intervallum::width::Width;
use crate::rattle::std::alloc::{AllocError, Global};

impl<B: Width, V: MapValue> IntervalMap<B, V> {
    /// Returns the map in which the numbers of the interval, which may be empty, have the value, and
    /// no others have one. `O(1)`. Fails only if allocation fails, and not for an empty interval.
    ///
    /// ```
    /// use intervallum::proved::examples::*;
    ///
    /// fn main() -> Result<(), std::boxed::Box<dyn std::error::Error>> {
    ///     let alloc = Global;
    ///     let a = IntervalMap::of(alloc, Interval::new(1i32, 5), 'a')?;
    ///     assert!(a.get(&1) == Some(&'a') && a.get(&6).is_none());
    ///     Ok(())
    /// }
    /// ```
    ///
    /// # Proved
    ///
    /// The numbers of the interval have the value, and no others have one. It cannot fail where the interval is empty.
    ///
    /// ```text
    /// ensures written { IfOk result (λ E. IsEntriesOf V.eq E (Written V.eq interval value NoValue)) }
    /// ensures empty { HasNone (IsBetween interval) → IsOk result }
    /// ```
    ///
    /// Words: [`IsEntriesOf`](crate::definitions#IsEntriesOf), [`Written`](crate::definitions#Written), [`NoValue`](crate::definitions#NoValue), [`HasNone`](crate::definitions#HasNone), [`IsBetween`](crate::definitions#IsBetween).
    pub fn of(alloc: Global, interval: Interval<B>, value: V) -> Result<Self, AllocError> {
        let mut map = IntervalMap::empty(alloc);
        map.insert(interval, value)?;
        Ok(map)
    }

    /// Returns the map of a list of intervals with values, which are written one after the other: at a
    /// number that several have, the last one counts. Intervals may be empty. The list is consumed.
    ///
    /// As many calls of [`IntervalMap::insert`] as the list has elements, `m`: `O(m log m)` if they are in
    /// ascending order, and at most `O(m^2)`. Fails only if an allocation or the copy of a value fails.
    ///
    /// ```
    /// use intervallum::proved::examples::*;
    ///
    /// fn main() -> Result<(), std::boxed::Box<dyn std::error::Error>> {
    ///     let alloc = Global;
    ///     let mut list = Vec::new(alloc);
    ///     list.push((Interval::new(1i32, 9), 'a'))?;
    ///     list.push((Interval::new(4, 5), 'b'))?;
    ///     let a = IntervalMap::from_entries(alloc, list)?;
    ///     assert!(a.get(&3) == Some(&'a') && a.get(&4) == Some(&'b'));
    ///     Ok(())
    /// }
    /// ```
    ///
    /// # Proved
    ///
    /// The elements are written one after the other, so the last one counts, and other numbers have no value.
    ///
    /// ```text
    /// ensures { IfOk result (λ E. IsEntriesOf V.eq E (WrittenAll V.eq list.items NoValue)) }
    /// ```
    ///
    /// Words: [`IsEntriesOf`](crate::definitions#IsEntriesOf), [`WrittenAll`](crate::definitions#WrittenAll), [`NoValue`](crate::definitions#NoValue).
    pub fn from_entries(alloc: Global, list: Vec<(Interval<B>, V)>) -> Result<Self, AllocError> {
        let mut map = IntervalMap::empty(alloc);
        map.extend(list)?;
        Ok(map)
    }

    /// Writes each element of a list of intervals with values, as [`IntervalMap::insert`] does, one
    /// after the other: at a number that several have, the last one counts. The list is consumed.
    ///
    /// As many calls of [`IntervalMap::insert`] as the list has elements, `m`: `O(m (n + m))` at most, and
    /// `O(m log (n + m))` if they are in ascending order and above all entries.
    ///
    /// # Errors
    ///
    /// Fails only where [`IntervalMap::insert`] of an element does. The elements before this one have then
    /// been written, and the others have not.
    ///
    /// ```
    /// use intervallum::proved::examples::*;
    ///
    /// fn main() -> Result<(), std::boxed::Box<dyn std::error::Error>> {
    ///     let alloc = Global;
    ///     let mut a = IntervalMap::of(alloc, Interval::new(1i32, 9), 'a')?;
    ///     let mut list = Vec::new(alloc);
    ///     list.push((Interval::new(4, 5), 'b'))?;
    ///     a.extend(list)?;
    ///     assert!(a.get(&3) == Some(&'a') && a.get(&4) == Some(&'b'));
    ///     Ok(())
    /// }
    /// ```
    ///
    /// # Proved
    ///
    /// The elements are written one after the other, so the last one counts, and other numbers have what they had. If it fails, it does so at some element, whose write may need room, and the elements before this one are written.
    ///
    /// ```text
    /// ensures ok { OnOk result (IsEntriesOf V.eq self.new (WrittenAll V.eq list.items (HasAt V.eq self.old))) }
    /// ensures err { OnErr result ((k : ℕ) × (k < length list.items)
    ///     × IsEntriesOf V.eq self.new (WrittenAll V.eq (take k list.items) (HasAt V.eq self.old))
    ///     × ((d : _) → NeedsRoom V.eq self.new (slice_index_or list.items k d))) }
    /// ```
    ///
    /// Words: [`IsEntriesOf`](crate::definitions#IsEntriesOf), [`WrittenAll`](crate::definitions#WrittenAll), [`HasAt`](crate::definitions#HasAt), [`NeedsRoom`](crate::definitions#NeedsRoom).
    pub fn extend(&mut self, list: Vec<(Interval<B>, V)>) -> Result<(), AllocError> {
        self.in_order();
        for (interval, value) in list {
            self.insert(interval, value)?;
        }
        Ok(())
    }

    /// Returns a copy of the map. `O(n)`: copies each value. Reserves `n` entries. Fails only if an
    /// allocation or the copy of a value fails, and not for an empty map.
    ///
    /// ```
    /// use intervallum::proved::examples::*;
    ///
    /// fn main() -> Result<(), std::boxed::Box<dyn std::error::Error>> {
    ///     let alloc = Global;
    ///     let a = IntervalMap::of(alloc, Interval::new(1i32, 5), 'a')?;
    ///     assert!(a.try_clone()? == a);
    ///     Ok(())
    /// }
    /// ```
    ///
    /// # Proved
    ///
    /// Equal values at the same numbers, and none at the others. It cannot fail where there is no entry.
    ///
    /// ```text
    /// ensures values { IfOk result (λ E. IsEntriesOf V.eq E (HasAt V.eq self.now)) }
    /// ensures none { self.now ≡ [] → IsOk result }
    /// ```
    ///
    /// Words: [`IsEntriesOf`](crate::definitions#IsEntriesOf), [`HasAt`](crate::definitions#HasAt).
    pub fn try_clone(&self) -> Result<Self, AllocError> {
        self.in_order();
        let entries = copies_of(self.allocator(), &self.entries)?;
        Ok(IntervalMap { entries })
    }
}

/// The same intervals with copies of the values.
fn copies_of<B: Width, V: MapValue>(
    alloc: Global,
    entries: &[(Interval<B>, V)],
) -> Result<Vec<(Interval<B>, V)>, AllocError> {
    let mut made = Vec::with_capacity(alloc, entries.len())?;
    for entry in entries {
        let copy = entry.1.try_copy()?;
        made.push((entry.0, copy))?;
    }
    Ok(made)
}
