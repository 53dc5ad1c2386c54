// Written by bindings/rust/extract from crates/ivl_map/src/interval_map.rt.
//! A map from integers to values.

#[allow(unused_imports)]
use crate::rattle::prelude::*;

mod changes;
mod iter;
mod lookups;
mod making;
mod numbers;
mod parts;
mod windows;

use crate::proved::ivl_map::edits::cut;
use crate::proved::ivl_map::value::MapValue;
use crate::proved::ivl_map::writes::write;
use crate::proved::intervallum::interval::Interval;
use crate::proved::intervallum::ops::IsEmpty;
use crate::proved::intervallum::width::Width;
pub use iter::Values;
use crate::rattle::std::alloc::{AllocError, Global};

/// A map from integers to values. A contract sees the list of its entries, each a pair of numbers
/// with a value.
///
/// An entry is a non-empty interval within the type's range, and the value of each of its numbers.
/// The entries stand in one vector, in ascending order. They do not overlap, and two that touch have
/// different values. So each number has at most one value, and two maps with equal values at the
/// same numbers have the same entries, up to values that are equal.
///
/// In costs, `n` is the number of entries. If an allocation or the copy of a value fails, a map that
/// was to be changed is unchanged, unless the docs of a call say otherwise. A value is copied only
/// where an edit splits its entry, before anything changes, by [`IntervalMap::update`], and by calls
/// that return another map.
///
/// ```
/// use intervallum::proved::examples::*;
///
/// fn main() -> Result<(), std::boxed::Box<dyn std::error::Error>> {
///     let alloc = Global;
///     let mut owners: IntervalMap<u32, char> = IntervalMap::empty(alloc);
///     owners.insert(Interval::new(0, 9), 'a')?;
///     owners.insert(Interval::new(4, 5), 'b')?;
///     assert!(owners.get(&3) == Some(&'a') && owners.get(&4) == Some(&'b'));
///     assert_eq!(owners.interval_count(), 3);
///     Ok(())
/// }
/// ```
pub struct IntervalMap<B: Width, V: MapValue> {
    entries: Vec<(Interval<B>, V)>,
}

impl<B: Width, V: MapValue> IntervalMap<B, V> {
    /// Returns the map in which no number has a value. `O(1)`. Does not allocate.
    ///
    /// ```
    /// use intervallum::proved::examples::*;
    ///
    /// fn main() -> Result<(), std::boxed::Box<dyn std::error::Error>> {
    ///     let alloc = Global;
    ///     let none: IntervalMap<i32, bool> = IntervalMap::empty(alloc);
    ///     assert!(none.is_empty() && none.get(&0).is_none());
    ///     Ok(())
    /// }
    /// ```
    ///
    /// # Proved
    ///
    /// It has no entry.
    ///
    /// ```text
    /// ensures { result ≡ [] }
    /// ```
    pub fn empty(alloc: Global) -> Self {
        IntervalMap {
            entries: Vec::new(alloc),
        }
    }

    /// Returns the number of entries. `O(1)`. Does not allocate.
    ///
    /// ```
    /// use intervallum::proved::examples::*;
    ///
    /// fn main() -> Result<(), std::boxed::Box<dyn std::error::Error>> {
    ///     let alloc = Global;
    ///     let a = IntervalMap::of(alloc, Interval::new(1i32, 5), 'a')?;
    ///     assert_eq!(a.interval_count(), 1);
    ///     Ok(())
    /// }
    /// ```
    ///
    /// # Proved
    ///
    /// The length of the list of entries. They ascend, two that touch have different values, and all numbers are in the range.
    ///
    /// ```text
    /// ensures count { result ≡ length self.now }
    /// ensures entries { IsEntryListIn B.whole V.eq self.now }
    /// ```
    ///
    /// Words: [`IsEntryListIn`](crate::definitions#IsEntryListIn).
    pub fn interval_count(&self) -> usize {
        self.entries.len()
    }

    /// Returns true exactly when no number has a value. `O(1)`. Does not allocate.
    ///
    /// ```
    /// use intervallum::proved::examples::*;
    ///
    /// fn main() -> Result<(), std::boxed::Box<dyn std::error::Error>> {
    ///     let alloc = Global;
    ///     let a = IntervalMap::of(alloc, Interval::new(1i32, 5), 'a')?;
    ///     assert!(!a.is_empty());
    ///     Ok(())
    /// }
    /// ```
    ///
    /// # Proved
    ///
    /// True if and only if there is no entry.
    ///
    /// ```text
    /// ensures none { IsTrue result ↔ (self.now ≡ []) }
    /// ```
    pub fn is_empty(&self) -> bool {
        self.entries.is_empty()
    }

    /// Returns the allocator that the map uses. `O(1)`. Does not allocate.
    ///
    /// ```
    /// use intervallum::proved::examples::*;
    ///
    /// fn main() -> Result<(), std::boxed::Box<dyn std::error::Error>> {
    ///     let alloc = Global;
    ///     let a = IntervalMap::of(alloc, Interval::new(1i32, 5), 'a')?;
    ///     let none: IntervalMap<i32, char> = IntervalMap::empty(a.allocator());
    ///     assert!(none != a);
    ///     Ok(())
    /// }
    /// ```
    pub fn allocator(&self) -> Global {
        *self.entries.allocator()
    }

    /// Does nothing: its contract states that the entries are in order and in the range, and that no
    /// number has two values.
    ///
    /// ```
    /// use intervallum::proved::examples::*;
    ///
    /// fn main() -> Result<(), std::boxed::Box<dyn std::error::Error>> {
    ///     let alloc = Global;
    ///     let a = IntervalMap::of(alloc, Interval::new(1i32, 5), 'a')?;
    ///     a.in_order(); // a proof knows from here on that each number has at most one value
    ///     assert!(a.get(&1) == Some(&'a'));
    ///     Ok(())
    /// }
    /// ```
    ///
    /// # Proved
    ///
    /// The entries ascend, two that touch have different values, and all numbers are in the range. Two values at one number are equal.
    ///
    /// ```text
    /// ensures entries { IsEntryListIn B.whole V.eq self.now }
    /// ensures one_value { (z : ℤ) (v : V) (w : V) → HasAt V.eq self.now z v → HasAt V.eq self.now z w → V.eq v w ≡ true }
    /// ```
    ///
    /// Words: [`IsEntryListIn`](crate::definitions#IsEntryListIn), [`HasAt`](crate::definitions#HasAt).
    pub fn in_order(&self) {
        self.entries.as_slice();
    }

    /// Gives each number of the interval, which may be empty, the value, in place of the one that it
    /// had. An entry that touches the interval and has an equal value grows.
    ///
    /// Binary search: `O(log n)`, or `O(n)` if the number of entries changes, as the entries above
    /// the interval then move. An interval inside an entry splits it, and the part above gets a copy
    /// of its value.
    ///
    /// # Errors
    ///
    /// Fails only if an allocation or the copy of a value fails. The map is then unchanged. Where the interval
    /// is empty, an entry lies within it, or one that touches or overlaps it has an equal value, it cannot
    /// fail.
    ///
    /// ```
    /// use intervallum::proved::examples::*;
    ///
    /// fn main() -> Result<(), std::boxed::Box<dyn std::error::Error>> {
    ///     let alloc = Global;
    ///     let mut a = IntervalMap::of(alloc, Interval::new(1i32, 9), 'a')?;
    ///     a.insert(Interval::new(4, 5), 'b')?;
    ///     assert!(a.get(&3) == Some(&'a') && a.get(&4) == Some(&'b') && a.get(&6) == Some(&'a'));
    ///     a.insert(Interval::new(4, 5), 'a')?;
    ///     assert_eq!(a.interval_count(), 1);
    ///     Ok(())
    /// }
    /// ```
    ///
    /// # Proved
    ///
    /// The numbers of the interval have the value, which is stored and no copy of it, and the others what they had. If it fails, the map is unchanged. It cannot fail where the interval is empty, where an entry lies within it, or where a number of it, or next to it, has an equal value.
    ///
    /// ```text
    /// ensures ok { OnOk result (IsEntriesOf V.eq self.new (Written V.eq interval value (HasAt V.eq self.old))) }
    /// ensures stored { OnOk result ((z : ℤ) → IsBetween interval z → IsStoredAt self.new z value) }
    /// ensures err { OnErr result (self.new ≡ self.old) }
    /// ensures empty { HasNone (IsBetween interval) → IsOk result }
    /// ensures replaces { (e : _) → IsIn self.old e → interval.0 ≤ℤ e.0.0 → e.0.1 ≤ℤ interval.1 → IsOk result }
    /// ensures grows { (z : ℤ) → IsBetween (widened interval) z → HasAt V.eq self.old z value → IsOk result }
    /// ```
    ///
    /// Words: [`IsEntriesOf`](crate::definitions#IsEntriesOf), [`Written`](crate::definitions#Written), [`HasAt`](crate::definitions#HasAt), [`IsBetween`](crate::definitions#IsBetween), [`IsStoredAt`](crate::definitions#IsStoredAt), [`HasNone`](crate::definitions#HasNone), [`IsIn`](crate::definitions#IsIn), [`widened`](crate::definitions#widened).
    pub fn insert(&mut self, interval: Interval<B>, value: V) -> Result<(), AllocError> {
        self.in_order();
        if interval.is_empty() {
            return Ok(());
        }
        interval.in_whole();
        write(&mut self.entries, interval, value)
    }

    /// Removes the values of the numbers of the interval, which may be empty.
    ///
    /// Binary search: `O(log n)`, or `O(n)` if the number of entries changes, as the entries above
    /// the interval then move. An interval inside an entry splits it, and the part above gets a copy
    /// of its value; only then is there anything to allocate.
    ///
    /// # Errors
    ///
    /// Fails only if the interval lies inside an entry, and an allocation or the copy of its value fails.
    /// The map is then unchanged.
    ///
    /// ```
    /// use intervallum::proved::examples::*;
    ///
    /// fn main() -> Result<(), std::boxed::Box<dyn std::error::Error>> {
    ///     let alloc = Global;
    ///     let mut a = IntervalMap::of(alloc, Interval::new(1i32, 9), 'a')?;
    ///     a.remove(Interval::new(4, 5))?;
    ///     assert!(a.get(&3) == Some(&'a') && a.get(&4).is_none() && a.get(&6) == Some(&'a'));
    ///     Ok(())
    /// }
    /// ```
    ///
    /// # Proved
    ///
    /// The numbers of the interval have no value, and the others what they had. If it fails, the map is unchanged. It cannot fail where the interval is empty, nor unless it lies inside an entry and splits it.
    ///
    /// ```text
    /// ensures ok { OnOk result (IsEntriesOf V.eq self.new (Outside interval (HasAt V.eq self.old))) }
    /// ensures err { OnErr result (self.new ≡ self.old) }
    /// ensures empty { HasNone (IsBetween interval) → IsOk result }
    /// ensures in_place { ¬ (HasThroughout V (widened interval) (HasAt V.eq self.old)) → IsOk result }
    /// ```
    ///
    /// Words: [`IsEntriesOf`](crate::definitions#IsEntriesOf), [`Outside`](crate::definitions#Outside), [`HasAt`](crate::definitions#HasAt), [`HasNone`](crate::definitions#HasNone), [`IsBetween`](crate::definitions#IsBetween), [`HasThroughout`](crate::definitions#HasThroughout), [`widened`](crate::definitions#widened).
    pub fn remove(&mut self, interval: Interval<B>) -> Result<(), AllocError> {
        self.in_order();
        if interval.is_empty() {
            return Ok(());
        }
        cut(&mut self.entries, interval)
    }

    /// Removes all values. Keeps the capacity. `O(n)`: drops each value. Does not allocate.
    ///
    /// ```
    /// use intervallum::proved::examples::*;
    ///
    /// fn main() -> Result<(), std::boxed::Box<dyn std::error::Error>> {
    ///     let alloc = Global;
    ///     let mut a = IntervalMap::of(alloc, Interval::new(1i32, 9), 'a')?;
    ///     a.clear();
    ///     assert!(a.is_empty());
    ///     Ok(())
    /// }
    /// ```
    ///
    /// # Proved
    ///
    /// No entry is left.
    ///
    /// ```text
    /// ensures { self.new ≡ [] }
    /// ```
    pub fn clear(&mut self) {
        self.entries.clear();
    }
}

/// Proved, with these words of the trait:
///
/// ```text
/// eq = { same_entries V.eq }
/// ```
///
/// Words: [`same_entries`](crate::definitions#same_entries).
impl<B: Width, V: MapValue> PartialEq for IntervalMap<B, V> {
    /// Returns true exactly when both maps have equal values at the same numbers. `O(n)`. Does not
    /// allocate.
    ///
    /// ```
    /// use intervallum::proved::examples::*;
    ///
    /// fn main() -> Result<(), std::boxed::Box<dyn std::error::Error>> {
    ///     let alloc = Global;
    ///     let a = IntervalMap::of(alloc, Interval::new(1i32, 9), 'a')?;
    ///     let mut b = IntervalMap::of(alloc, Interval::new(1i32, 5), 'a')?;
    ///     assert!(a != b);
    ///     b.insert(Interval::new(6, 9), 'a')?;
    ///     assert!(a == b);
    ///     Ok(())
    /// }
    /// ```
    ///
    /// # Proved
    ///
    /// True if and only if the same intervals stand in the same places with equal values, which is where equal values stand at the same numbers.
    ///
    /// ```text
    /// ensures value { result ≡ same_entries V.eq self.now other.now }
    /// ensures values { IsTrue result ↔ SameValues (HasAt V.eq self.now) (HasAt V.eq other.now) }
    /// ```
    ///
    /// Words: [`same_entries`](crate::definitions#same_entries), [`SameValues`](crate::definitions#SameValues), [`HasAt`](crate::definitions#HasAt).
    fn eq(&self, other: &IntervalMap<B, V>) -> bool {
        self.in_order();
        other.in_order();
        are_the_same(&self.entries, &other.entries)
    }
}

impl<B: Width, V: MapValue> Eq for IntervalMap<B, V> {
}

/// Two lists have the same intervals with equal values in the same places.
fn are_the_same<B: Width, V: MapValue>(a: &[(Interval<B>, V)], b: &[(Interval<B>, V)]) -> bool {
    a == b
}
