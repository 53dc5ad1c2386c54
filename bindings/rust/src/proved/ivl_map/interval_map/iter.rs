// Written by bindings/rust/extract from crates/ivl_map/src/interval_map/iter.rt.
//! Iteration over the entries of a map, and over its values.

#[allow(unused_imports)]
use crate::rattle::prelude::*;
use super::IntervalMap;
use crate::proved::ivl_map::value::MapValue;
use crate::proved::intervallum::interval::Interval;
use crate::proved::intervallum::width::Width;
use crate::rattle::std::iter::FusedIterator;

/// A double-ended iterator over the values of a map, each with its run, as `values` returns it. A
/// contract sees the entries that are left.
///
/// No call allocates.
///
/// ```
/// use intervallum::proved::examples::*;
///
/// fn main() -> Result<(), std::boxed::Box<dyn std::error::Error>> {
///     let alloc = Global;
///     let mut a = IntervalMap::of(alloc, Interval::new(1i32, 5), 'a')?;
///     a.insert(Interval::new(8, 9), 'b')?;
///     let mut values = a.values();
///     assert!(values.next() == Some((Interval::new(1, 5), &'a')));
///     assert!(values.next() == Some((Interval::new(8, 9), &'b')) && values.next().is_none());
///     Ok(())
/// }
/// ```
pub struct Values<'a, B: Width, V: MapValue> {
    left: &'a [(Interval<B>, V)],
}

/// Proved, with these words of the trait:
///
/// ```text
/// next_gives = { YieldsFirstBy (λ r. (r.0, r.1.now)) (λ left. left) }
/// remaining = { item_count (λ left. left) }
/// ```
impl<'a, B: Width, V: MapValue> Iterator for Values<'a, B, V> {
    type Item = (Interval<B>, &'a V);

    /// Returns the first value that is left, with its run, or `None` if there is none. `O(1)`.
    ///
    /// ```
    /// use intervallum::proved::examples::*;
    ///
    /// fn main() -> Result<(), std::boxed::Box<dyn std::error::Error>> {
    ///     let alloc = Global;
    ///     let a = IntervalMap::of(alloc, Interval::new(1i32, 5), 'a')?;
    ///     assert!(a.values().next() == Some((Interval::new(1, 5), &'a')));
    ///     Ok(())
    /// }
    /// ```
    fn next(&mut self) -> Option<(Interval<B>, &'a V)> {
        let (entry, rest) = self.left.split_first()?;
        self.left = rest;
        Some((entry.0, &entry.1))
    }
}

/// Proved, with these words of the trait:
///
/// ```text
/// next_back_gives = { YieldsLastBy (λ r. (r.0, r.1.now)) (λ left. left) }
/// ```
impl<'a, B: Width, V: MapValue> DoubleEndedIterator for Values<'a, B, V> {
    /// Returns the last value that is left, with its run, or `None` if there is none. `O(1)`.
    ///
    /// ```
    /// use intervallum::proved::examples::*;
    ///
    /// fn main() -> Result<(), std::boxed::Box<dyn std::error::Error>> {
    ///     let alloc = Global;
    ///     let a = IntervalMap::of(alloc, Interval::new(1i32, 5), 'a')?;
    ///     assert!(a.values().next_back() == Some((Interval::new(1, 5), &'a')));
    ///     Ok(())
    /// }
    /// ```
    fn next_back(&mut self) -> Option<(Interval<B>, &'a V)> {
        let (entry, rest) = self.left.split_last()?;
        self.left = rest;
        Some((entry.0, &entry.1))
    }
}

impl<'a, B: Width, V: MapValue> FusedIterator for Values<'a, B, V> {}

impl<B: Width, V: MapValue> IntervalMap<B, V> {
    /// Returns the entries as a slice, in ascending order. `O(1)`. Does not allocate.
    ///
    /// ```
    /// use intervallum::proved::examples::*;
    ///
    /// fn main() -> Result<(), std::boxed::Box<dyn std::error::Error>> {
    ///     let alloc = Global;
    ///     let a = IntervalMap::of(alloc, Interval::new(1i32, 5), 'a')?;
    ///     assert!(a.entries().len() == 1 && a.entries()[0].1 == 'a');
    ///     Ok(())
    /// }
    /// ```
    ///
    /// # Proved
    ///
    /// All entries, which ascend and stand in the range.
    ///
    /// ```text
    /// ensures same { result.now ≡ self.now }
    /// ensures entries { IsEntryListIn B.whole V.eq self.now }
    /// ```
    ///
    /// Words: [`IsEntryListIn`](crate::definitions#IsEntryListIn).
    pub fn entries(&self) -> &[(Interval<B>, V)] {
        self.entries.as_slice()
    }

    /// Returns the vector of the entries, in ascending order. Consumes the map. `O(1)`. Does not
    /// allocate, and copies no value.
    ///
    /// ```
    /// use intervallum::proved::examples::*;
    ///
    /// fn main() -> Result<(), std::boxed::Box<dyn std::error::Error>> {
    ///     let alloc = Global;
    ///     let a = IntervalMap::of(alloc, Interval::new(1i32, 5), 'a')?;
    ///     let entries = a.into_entries();
    ///     assert!(entries.len() == 1 && entries[0].0 == Interval::new(1, 5));
    ///     Ok(())
    /// }
    /// ```
    ///
    /// # Proved
    ///
    /// All entries, which ascend and stand in the range.
    ///
    /// ```text
    /// ensures same { result.items ≡ self }
    /// ensures entries { IsEntryListIn B.whole V.eq self }
    /// ```
    ///
    /// Words: [`IsEntryListIn`](crate::definitions#IsEntryListIn).
    pub fn into_entries(self) -> Vec<(Interval<B>, V)> {
        self.in_order();
        self.entries
    }

    /// Returns a double-ended iterator over the entries, in ascending order. `O(1)`. Does not
    /// allocate.
    ///
    /// ```
    /// use intervallum::proved::examples::*;
    ///
    /// fn main() -> Result<(), std::boxed::Box<dyn std::error::Error>> {
    ///     let alloc = Global;
    ///     let mut a = IntervalMap::of(alloc, Interval::new(1i32, 5), 'a')?;
    ///     a.insert(Interval::new(8, 9), 'b')?;
    ///     let mut entries = a.iter();
    ///     assert!(entries.next() == Some(&(Interval::new(1, 5), 'a')));
    ///     assert!(entries.next_back() == Some(&(Interval::new(8, 9), 'b')));
    ///     Ok(())
    /// }
    /// ```
    ///
    /// # Proved
    ///
    /// All entries are left, which ascend and stand in the range.
    ///
    /// ```text
    /// ensures rest { result.rest.now ≡ self.now }
    /// ensures entries { IsEntryListIn B.whole V.eq self.now }
    /// ```
    ///
    /// Words: [`IsEntryListIn`](crate::definitions#IsEntryListIn).
    pub fn iter(&self) -> crate::rattle::std::slice::Iter<'_, (Interval<B>, V)> {
        self.entries.iter()
    }

    /// Returns a double-ended iterator over the values, each with its run, in ascending order.
    /// `O(1)`. Does not allocate.
    ///
    /// ```
    /// use intervallum::proved::examples::*;
    ///
    /// fn main() -> Result<(), std::boxed::Box<dyn std::error::Error>> {
    ///     let alloc = Global;
    ///     let a = IntervalMap::of(alloc, Interval::new(1i32, 5), 'a')?;
    ///     for (run, value) in a.values() {
    ///         assert!(run == Interval::new(1, 5) && *value == 'a');
    ///     }
    ///     Ok(())
    /// }
    /// ```
    ///
    /// # Proved
    ///
    /// All entries are left, which ascend and stand in the range.
    ///
    /// ```text
    /// ensures rest { result ≡ self.now }
    /// ensures entries { IsEntryListIn B.whole V.eq self.now }
    /// ```
    ///
    /// Words: [`IsEntryListIn`](crate::definitions#IsEntryListIn).
    pub fn values(&self) -> Values<'_, B, V> {
        Values {
            left: self.entries.as_slice(),
        }
    }
}
