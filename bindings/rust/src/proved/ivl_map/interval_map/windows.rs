// Written by bindings/rust/extract from crates/ivl_map/src/interval_map/windows.rt.
//! What a map has within a window.

#[allow(unused_imports)]
use crate::rattle::prelude::*;
use super::IntervalMap;
use super::numbers::numbers_of;
use crate::proved::ivl_map::edits::span;
use crate::proved::ivl_map::value::MapValue;
use crate::proved::intervallum::interval::Interval;
use crate::proved::intervallum::interval_set::IntervalSet;
use crate::proved::intervallum::ops::{
    Bounded, Cardinality, Difference, IsEmpty, Range, StrictShrinkLeft, StrictShrinkRight,
};
use crate::proved::intervallum::width::{SizeNumber, Width};
use crate::rattle::std::alloc::AllocError;

impl<B: Width, V: MapValue> IntervalMap<B, V> {
    /// Returns the entries that have a number of the window, as a slice in ascending order. The first
    /// and the last are whole, so they may reach beyond the window. An empty window meets none.
    ///
    /// Two binary searches: `O(log n)`. Does not allocate.
    ///
    /// ```
    /// use intervallum::proved::examples::*;
    ///
    /// fn main() -> Result<(), std::boxed::Box<dyn std::error::Error>> {
    ///     let alloc = Global;
    ///     let mut a = IntervalMap::of(alloc, Interval::new(1i32, 5), 'a')?;
    ///     a.insert(Interval::new(8, 9), 'b')?;
    ///     let met = a.overlapping(Interval::new(5, 7));
    ///     assert!(met.len() == 1 && met[0].0 == Interval::new(1, 5));
    ///     Ok(())
    /// }
    /// ```
    ///
    /// # Proved
    ///
    /// Each is an entry of the map, and has a number of the window. The numbers of the window have the values that the map has there, and the others no more than these. They ascend, and stand in the range.
    ///
    /// ```text
    /// ensures whole { (e : _) → IsIn result.now e → IsIn self.now e }
    /// ensures overlap { All (λ e. HasSome (Intersection (IsBetween e.0) (IsBetween window))) result.now }
    /// ensures held { (z : ℤ) (v : V) → IsBetween window z → HasAt V.eq result.now z v ↔ HasAt V.eq self.now z v }
    /// ensures part { (z : ℤ) (v : V) → HasAt V.eq result.now z v → HasAt V.eq self.now z v }
    /// ensures entries { IsEntryListIn B.whole V.eq result.now }
    /// ```
    ///
    /// Words: [`IsIn`](crate::definitions#IsIn), [`HasSome`](crate::definitions#HasSome), [`Intersection`](crate::definitions#Intersection), [`IsBetween`](crate::definitions#IsBetween), [`HasAt`](crate::definitions#HasAt), [`IsEntryListIn`](crate::definitions#IsEntryListIn).
    pub fn overlapping(&self, window: Interval<B>) -> &[(Interval<B>, V)] {
        let entries = self.entries.as_slice();
        if window.is_empty() {
            return &entries[..0];
        }
        let (start, end) = span(entries, window);
        if end <= start {
            return &entries[..0];
        }
        &entries[start..end]
    }

    /// Returns the numbers of the window that have no value. `O(log n + k)`, if `k` entries have
    /// numbers of the window. Reserves `k + 1` runs for the result, and some more until it returns.
    /// Fails only if allocation fails.
    ///
    /// ```
    /// use intervallum::proved::examples::*;
    ///
    /// fn main() -> Result<(), std::boxed::Box<dyn std::error::Error>> {
    ///     let alloc = Global;
    ///     let a = IntervalMap::of(alloc, Interval::new(1i32, 5), 'a')?;
    ///     assert!(a.gaps_within(Interval::new(4, 9))? == IntervalSet::new(alloc, 6, 9)?);
    ///     Ok(())
    /// }
    /// ```
    ///
    /// # Proved
    ///
    /// The members are the numbers of the window that have no value.
    ///
    /// ```text
    /// ensures { IfOk result (λ L. IsRunsOf L (Without (IsBetween window) (HasValue (HasAt V.eq self.now)))) }
    /// ```
    ///
    /// Words: [`IsRunsOf`](crate::definitions#IsRunsOf), [`Without`](crate::definitions#Without), [`IsBetween`](crate::definitions#IsBetween), [`HasValue`](crate::definitions#HasValue), [`HasAt`](crate::definitions#HasAt).
    pub fn gaps_within(&self, window: Interval<B>) -> Result<IntervalSet<B>, AllocError> {
        let numbers = numbers_of(self.allocator(), self.overlapping(window))?;
        let all = IntervalSet::of(self.allocator(), window)?;
        all.difference(&numbers)
    }

    /// Returns the lowest interval of exactly `count` consecutive numbers of the window that have no
    /// value, or `None` if there is none. The caller must ensure that `count` is above 0. Check with
    /// `count.number() > 0`.
    ///
    /// Walks the `k` entries of the window up to the first gap that is long enough: `O(log n + k)`. Does
    /// not allocate, and never fails.
    ///
    /// ```
    /// use intervallum::proved::examples::*;
    ///
    /// fn main() -> Result<(), std::boxed::Box<dyn std::error::Error>> {
    ///     let alloc = Global;
    ///     let mut a = IntervalMap::of(alloc, Interval::new(3i32, 5), 'a')?;
    ///     a.insert(Interval::new(8, 9), 'b')?;
    ///     let free = a.first_fit(Interval::new(1, 20), 3)?;
    ///     assert!(free == Some(Interval::new(10, 12)));
    ///     Ok(())
    /// }
    /// ```
    ///
    /// # Proved
    ///
    /// None: nowhere in the window do so many numbers without a value stand in a row. Else the lowest that do. It cannot fail.
    ///
    /// ```text
    /// requires { 0 < B.Output.size count }
    /// ensures fit { IfOk result (λ fit. MatchOption fit
    ///     ((v : ℤ) → ¬ (FitsAt (B.Output.size count) (Without (IsBetween window) (HasValue (HasAt V.eq self.now))) v))
    ///     (IsFirstFit (B.Output.size count) (Without (IsBetween window) (HasValue (HasAt V.eq self.now))))) }
    /// ensures never_fails { IsOk result }
    /// ```
    ///
    /// Words: [`FitsAt`](crate::definitions#FitsAt), [`Without`](crate::definitions#Without), [`IsBetween`](crate::definitions#IsBetween), [`HasValue`](crate::definitions#HasValue), [`HasAt`](crate::definitions#HasAt), [`IsFirstFit`](crate::definitions#IsFirstFit).
    #[cfg_attr(debug_assertions, track_caller)]
    pub fn first_fit(
        &self,
        window: Interval<B>,
        count: B::Output,
    ) -> Result<Option<Interval<B>>, AllocError> {
        debug_assert!({ #[allow(unused_imports)] use crate::proved::ivl_interval::ops::*; crate::proved::ivl_interval::width::SizeNumber::number(count) > 0 }, "{}", "the condition of `first_fit` is broken: crate::proved::ivl_interval::width::SizeNumber::number(count) > 0");
        Ok(first_gap(self.overlapping(window), window, count))
    }
}

/// The lowest `count` consecutive numbers of a window that no entry has.
fn first_gap<B: Width, V: MapValue>(
    entries: &[(Interval<B>, V)],
    window: Interval<B>,
    count: B::Output,
) -> Option<Interval<B>> {
    let mut rest = window;
    for entry in entries {
        let gap = rest.strict_shrink_right(entry.0.lower());
        if gap.size() >= count {
            return Some(lowest_of(gap, count));
        }
        rest = rest.strict_shrink_left(entry.0.upper());
    }
    if rest.size() >= count {
        Some(lowest_of(rest, count))
    } else {
        None
    }
}

/// The lowest `count` numbers of an interval that has at least so many.
fn lowest_of<B: Width>(gap: Interval<B>, count: B::Output) -> Interval<B> {
    gap.in_whole();
    let start = gap.lower_bound();
    let last = start.number() + (count.number() - 1) as i128;
    Interval::new(start, B::from_number(last).unwrap())
}
