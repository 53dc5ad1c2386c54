// Written by bindings/rust/extract from crates/ivl_map/src/interval_map/lookups.rt.
//! The value at a number, and the entries next to it.

#[allow(unused_imports)]
use crate::rattle::prelude::*;
use super::IntervalMap;
use crate::proved::ivl_map::search::{ends_below, find, starts_up_to};
use crate::proved::ivl_map::value::MapValue;
use crate::proved::intervallum::interval::Interval;
use crate::proved::intervallum::width::Width;

impl<B: Width, V: MapValue> IntervalMap<B, V> {
    /// Returns the value at a number, or `None` if it has none. The number may be any value of its
    /// type. Binary search: `O(log n)`. Does not allocate.
    ///
    /// ```
    /// use intervallum::proved::examples::*;
    ///
    /// fn main() -> Result<(), std::boxed::Box<dyn std::error::Error>> {
    ///     let alloc = Global;
    ///     let a = IntervalMap::of(alloc, Interval::new(1i32, 5), 'a')?;
    ///     assert!(a.get(&5) == Some(&'a') && a.get(&6).is_none());
    ///     Ok(())
    /// }
    /// ```
    ///
    /// # Proved
    ///
    /// None if and only if the number has no value; else its value. It is the value of an entry that has the number.
    ///
    /// ```text
    /// ensures value { MatchOption result
    ///     ((v : V) → ¬ (HasAt V.eq self.now (B.value item.now) v))
    ///     (λ v. HasAt V.eq self.now (B.value item.now) v.now) }
    /// ensures stored { IfSome result (λ v. IsStoredAt self.now (B.value item.now) v.now) }
    /// ```
    ///
    /// Words: [`HasAt`](crate::definitions#HasAt), [`IsStoredAt`](crate::definitions#IsStoredAt).
    pub fn get(&self, item: &B) -> Option<&V> {
        let entries = self.entries.as_slice();
        match find(entries, *item) {
            Some(place) => Some(&entries[place].1),
            None => None,
        }
    }

    /// Returns true exactly when a number has a value. Binary search: `O(log n)`. Does not allocate.
    ///
    /// ```
    /// use intervallum::proved::examples::*;
    ///
    /// fn main() -> Result<(), std::boxed::Box<dyn std::error::Error>> {
    ///     let alloc = Global;
    ///     let a = IntervalMap::of(alloc, Interval::new(1i32, 5), 'a')?;
    ///     assert!(a.contains(&5) && !a.contains(&6));
    ///     Ok(())
    /// }
    /// ```
    ///
    /// # Proved
    ///
    /// True if and only if the number has a value.
    ///
    /// ```text
    /// ensures { IsTrue result ↔ HasValue (HasAt V.eq self.now) (B.value item.now) }
    /// ```
    ///
    /// Words: [`HasValue`](crate::definitions#HasValue), [`HasAt`](crate::definitions#HasAt).
    pub fn contains(&self, item: &B) -> bool {
        self.get(item).is_some()
    }

    /// Returns the longest interval with the number in it whose numbers all have equal values, and
    /// that value, or `None` if the number has none. Binary search: `O(log n)`. Does not allocate.
    ///
    /// ```
    /// use intervallum::proved::examples::*;
    ///
    /// fn main() -> Result<(), std::boxed::Box<dyn std::error::Error>> {
    ///     let alloc = Global;
    ///     let a = IntervalMap::of(alloc, Interval::new(1i32, 5), 'a')?;
    ///     assert!(a.get_run(3) == Some((Interval::new(1, 5), &'a')));
    ///     assert!(a.get_run(6).is_none());
    ///     Ok(())
    /// }
    /// ```
    ///
    /// # Proved
    ///
    /// None if and only if the number has no value; else the longest run round it whose numbers have equal values. It is one of the entries.
    ///
    /// ```text
    /// ensures run { MatchOption result
    ///     ((v : V) → ¬ (HasAt V.eq self.now (B.value item) v))
    ///     (λ r. IsRunOfValue V.eq (B.value item) (HasAt V.eq self.now) (r.0, r.1.now)) }
    /// ensures stored { IfSome result (λ r. IsIn self.now (r.0, r.1.now)) }
    /// ```
    ///
    /// Words: [`HasAt`](crate::definitions#HasAt), [`IsRunOfValue`](crate::definitions#IsRunOfValue), [`IsIn`](crate::definitions#IsIn).
    pub fn get_run(&self, item: B) -> Option<(Interval<B>, &V)> {
        let entries = self.entries.as_slice();
        match find(entries, item) {
            Some(place) => entry_at(entries, place),
            None => None,
        }
    }

    /// Returns the entry with the least numbers, or `None` if there is none. `O(1)`. Does not
    /// allocate.
    ///
    /// ```
    /// use intervallum::proved::examples::*;
    ///
    /// fn main() -> Result<(), std::boxed::Box<dyn std::error::Error>> {
    ///     let alloc = Global;
    ///     let mut a = IntervalMap::of(alloc, Interval::new(1i32, 5), 'a')?;
    ///     a.insert(Interval::new(8, 9), 'b')?;
    ///     assert!(a.first() == Some((Interval::new(1, 5), &'a')));
    ///     Ok(())
    /// }
    /// ```
    ///
    /// # Proved
    ///
    /// None if and only if no number has a value; else the run round the least one that has. It is one of the entries.
    ///
    /// ```text
    /// ensures least { MatchOption result
    ///     (HasNone (HasValue (HasAt V.eq self.now)))
    ///     (λ r. IsFirstRunOf V.eq (HasValue (HasAt V.eq self.now)) (HasAt V.eq self.now) (r.0, r.1.now)) }
    /// ensures stored { IfSome result (λ r. IsIn self.now (r.0, r.1.now)) }
    /// ```
    ///
    /// Words: [`HasNone`](crate::definitions#HasNone), [`HasValue`](crate::definitions#HasValue), [`HasAt`](crate::definitions#HasAt), [`IsFirstRunOf`](crate::definitions#IsFirstRunOf), [`IsIn`](crate::definitions#IsIn).
    pub fn first(&self) -> Option<(Interval<B>, &V)> {
        entry_at(self.entries.as_slice(), 0)
    }

    /// Returns the entry with the greatest numbers, or `None` if there is none. `O(1)`. Does not
    /// allocate.
    ///
    /// ```
    /// use intervallum::proved::examples::*;
    ///
    /// fn main() -> Result<(), std::boxed::Box<dyn std::error::Error>> {
    ///     let alloc = Global;
    ///     let mut a = IntervalMap::of(alloc, Interval::new(1i32, 5), 'a')?;
    ///     a.insert(Interval::new(8, 9), 'b')?;
    ///     assert!(a.last() == Some((Interval::new(8, 9), &'b')));
    ///     Ok(())
    /// }
    /// ```
    ///
    /// # Proved
    ///
    /// None if and only if no number has a value; else the run round the greatest one that has. It is one of the entries.
    ///
    /// ```text
    /// ensures greatest { MatchOption result
    ///     (HasNone (HasValue (HasAt V.eq self.now)))
    ///     (λ r. IsLastRunOf V.eq (HasValue (HasAt V.eq self.now)) (HasAt V.eq self.now) (r.0, r.1.now)) }
    /// ensures stored { IfSome result (λ r. IsIn self.now (r.0, r.1.now)) }
    /// ```
    ///
    /// Words: [`HasNone`](crate::definitions#HasNone), [`HasValue`](crate::definitions#HasValue), [`HasAt`](crate::definitions#HasAt), [`IsLastRunOf`](crate::definitions#IsLastRunOf), [`IsIn`](crate::definitions#IsIn).
    pub fn last(&self) -> Option<(Interval<B>, &V)> {
        let entries = self.entries.as_slice();
        entry_before(entries, entries.len())
    }

    /// Returns the entry of the least number that is at least `v` and has a value, or `None` if
    /// there is none. `v` may be any value of its type. Binary search: `O(log n)`. Does not
    /// allocate.
    ///
    /// ```
    /// use intervallum::proved::examples::*;
    ///
    /// fn main() -> Result<(), std::boxed::Box<dyn std::error::Error>> {
    ///     let alloc = Global;
    ///     let mut a = IntervalMap::of(alloc, Interval::new(1i32, 5), 'a')?;
    ///     a.insert(Interval::new(8, 9), 'b')?;
    ///     assert!(a.next_from(4) == Some((Interval::new(1, 5), &'a')));
    ///     assert!(a.next_from(6) == Some((Interval::new(8, 9), &'b')));
    ///     assert!(a.next_from(10).is_none());
    ///     Ok(())
    /// }
    /// ```
    ///
    /// # Proved
    ///
    /// None if and only if no number from `v` on has a value; else the run round the least one that has. It is one of the entries.
    ///
    /// ```text
    /// ensures least { MatchOption result
    ///     (HasNone (AtLeast (B.value v) (HasValue (HasAt V.eq self.now))))
    ///     (λ r. IsFirstRunOf V.eq (AtLeast (B.value v) (HasValue (HasAt V.eq self.now))) (HasAt V.eq self.now) (r.0, r.1.now)) }
    /// ensures stored { IfSome result (λ r. IsIn self.now (r.0, r.1.now)) }
    /// ```
    ///
    /// Words: [`HasNone`](crate::definitions#HasNone), [`AtLeast`](crate::definitions#AtLeast), [`HasValue`](crate::definitions#HasValue), [`HasAt`](crate::definitions#HasAt), [`IsFirstRunOf`](crate::definitions#IsFirstRunOf), [`IsIn`](crate::definitions#IsIn).
    pub fn next_from(&self, v: B) -> Option<(Interval<B>, &V)> {
        let entries = self.entries.as_slice();
        let place = ends_below(entries, v);
        entry_at(entries, place)
    }

    /// Returns the entry of the greatest number that is at most `v` and has a value, or `None` if
    /// there is none. `v` may be any value of its type. Binary search: `O(log n)`. Does not
    /// allocate.
    ///
    /// ```
    /// use intervallum::proved::examples::*;
    ///
    /// fn main() -> Result<(), std::boxed::Box<dyn std::error::Error>> {
    ///     let alloc = Global;
    ///     let mut a = IntervalMap::of(alloc, Interval::new(1i32, 5), 'a')?;
    ///     a.insert(Interval::new(8, 9), 'b')?;
    ///     assert!(a.previous_to(8) == Some((Interval::new(8, 9), &'b')));
    ///     assert!(a.previous_to(7) == Some((Interval::new(1, 5), &'a')));
    ///     assert!(a.previous_to(0).is_none());
    ///     Ok(())
    /// }
    /// ```
    ///
    /// # Proved
    ///
    /// None if and only if no number up to `v` has a value; else the run round the greatest one that has. It is one of the entries.
    ///
    /// ```text
    /// ensures greatest { MatchOption result
    ///     (HasNone (AtMost (B.value v) (HasValue (HasAt V.eq self.now))))
    ///     (λ r. IsLastRunOf V.eq (AtMost (B.value v) (HasValue (HasAt V.eq self.now))) (HasAt V.eq self.now) (r.0, r.1.now)) }
    /// ensures stored { IfSome result (λ r. IsIn self.now (r.0, r.1.now)) }
    /// ```
    ///
    /// Words: [`HasNone`](crate::definitions#HasNone), [`AtMost`](crate::definitions#AtMost), [`HasValue`](crate::definitions#HasValue), [`HasAt`](crate::definitions#HasAt), [`IsLastRunOf`](crate::definitions#IsLastRunOf), [`IsIn`](crate::definitions#IsIn).
    pub fn previous_to(&self, v: B) -> Option<(Interval<B>, &V)> {
        let entries = self.entries.as_slice();
        let place = starts_up_to(entries, v);
        entry_before(entries, place)
    }
}

/// The entry at a place, or `None` if there are no so many.
fn entry_at<B: Width, V: MapValue>(
    entries: &[(Interval<B>, V)],
    place: usize,
) -> Option<(Interval<B>, &V)> {
    if place < entries.len() {
        let entry = &entries[place];
        Some((entry.0, &entry.1))
    } else {
        None
    }
}

/// The entry before a place, or `None` if there is none.
fn entry_before<B: Width, V: MapValue>(
    entries: &[(Interval<B>, V)],
    place: usize,
) -> Option<(Interval<B>, &V)> {
    if place == 0 {
        None
    } else {
        entry_at(entries, place - 1)
    }
}
