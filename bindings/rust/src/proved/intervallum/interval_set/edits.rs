// Written by bindings/rust/extract from crates/intervallum/src/interval_set/edits.rt.
//! Edits in place: members are added to a set and removed from it.

#[allow(unused_imports)]
use crate::rattle::prelude::*;

mod spans;
mod splices;

use super::IntervalSet;
use super::builder::grown;
use crate::proved::intervallum::interval::Interval;
use crate::proved::intervallum::ops::{Bounded, Contains, IsEmpty, Singleton, StrictShrinkLeft, StrictShrinkRight};
use crate::proved::intervallum::width::{SizeNumber, Width};
use spans::{if_filled, joined, rests, span, touched};
use splices::{replace_runs, shrunk, size_of, total_size};
use crate::rattle::std::alloc::AllocError;

impl<B: Width> IntervalSet<B> {
    /// Adds a value. Returns true exactly when it was not a member before.
    ///
    /// The caller must ensure that the value is in the range. Check with
    /// `Interval::in_range(value, value)`.
    ///
    /// Binary search: `O(log n)`, or `O(n)` if the number of runs changes, as the runs above the
    /// value then move. Allocates only if a run is added and there is no capacity for it.
    ///
    /// # Errors
    ///
    /// Fails only if allocation fails. The set is then unchanged.
    ///
    /// ```
    /// use intervallum::proved::examples::*;
    ///
    /// fn main() -> Result<(), std::boxed::Box<dyn std::error::Error>> {
    ///     let alloc = Global;
    ///     let mut a: IntervalSet<i32> = [(1, 2), (4, 5)].to_interval_set(alloc)?;
    ///     assert!(Interval::in_range(3, 3), "it is in the range");
    ///     assert!(a.insert(3)? && !a.insert(3)?);
    ///     assert!(a == IntervalSet::new(alloc, 1, 5)?);
    ///     Ok(())
    /// }
    /// ```
    ///
    /// # Proved
    ///
    /// On success, exactly the value is added, and the answer is true exactly when it was no member; on an error the set is unchanged. It succeeds if the value or a number next to it is a member.
    ///
    /// ```text
    /// requires { IsBetween B.whole (B.value value) }
    /// ensures members { OnOk result (IsRunsOf self.new (Union (Covers self.old) (Only (B.value value)))) }
    /// ensures is_new { IfOk result (λ is_new. IsTrue is_new ↔ ¬ (Covers self.old (B.value value))) }
    /// ensures err { OnErr result (self.new ≡ self.old) }
    /// ensures in_place { HasSome (Intersection (Covers self.old) (IsBetween (widened (B.value value, B.value value)))) → IsOk result }
    /// ```
    ///
    /// Words: [`IsBetween`](crate::definitions#IsBetween), [`IsRunsOf`](crate::definitions#IsRunsOf), [`Union`](crate::definitions#Union), [`Covers`](crate::definitions#Covers), [`Only`](crate::definitions#Only), [`HasSome`](crate::definitions#HasSome), [`Intersection`](crate::definitions#Intersection), [`widened`](crate::definitions#widened).
    #[cfg_attr(debug_assertions, track_caller)]
    pub fn insert(&mut self, value: B) -> Result<bool, AllocError> {
        debug_assert!({ #[allow(unused_imports)] use crate::proved::ivl_interval::ops::*; Interval::in_range(value, value) }, "{}", "the condition of `insert` is broken: Interval::in_range(value, value)");
        self.in_whole();
        if self.contains(&value) {
            return Ok(false);
        }
        self.insert_interval(Interval::singleton(value))?;
        Ok(true)
    }

    /// Removes a value, which may be any value of its type. Returns true exactly when it was a
    /// member.
    ///
    /// Binary search: `O(log n)`, or `O(n)` if the number of runs changes, as the runs above the
    /// value then move. Allocates only if a run is split and there is no capacity for one more.
    ///
    /// # Errors
    ///
    /// Fails only if allocation fails. The set is then unchanged.
    ///
    /// ```
    /// use intervallum::proved::examples::*;
    ///
    /// fn main() -> Result<(), std::boxed::Box<dyn std::error::Error>> {
    ///     let alloc = Global;
    ///     let mut a = IntervalSet::new(alloc, 1, 5)?;
    ///     assert!(a.remove(3)? && !a.remove(3)?);
    ///     assert!(a == [(1, 2), (4, 5)].to_interval_set(alloc)?);
    ///     Ok(())
    /// }
    /// ```
    ///
    /// # Proved
    ///
    /// On success, exactly the value is removed, and the answer is true exactly when it was a member; on an error the set is unchanged. It succeeds unless the value and both numbers next to it are members.
    ///
    /// ```text
    /// ensures members { OnOk result (IsRunsOf self.new (Without (Covers self.old) (Only (B.value value)))) }
    /// ensures was_member { IfOk result (λ was_member. IsTrue was_member ↔ Covers self.old (B.value value)) }
    /// ensures err { OnErr result (self.new ≡ self.old) }
    /// ensures in_place { ¬ (IsSubset (IsBetween (widened (B.value value, B.value value))) (Covers self.old)) → IsOk result }
    /// ```
    ///
    /// Words: [`IsRunsOf`](crate::definitions#IsRunsOf), [`Without`](crate::definitions#Without), [`Covers`](crate::definitions#Covers), [`Only`](crate::definitions#Only), [`IsSubset`](crate::definitions#IsSubset), [`IsBetween`](crate::definitions#IsBetween), [`widened`](crate::definitions#widened).
    pub fn remove(&mut self, value: B) -> Result<bool, AllocError> {
        self.in_whole();
        if !self.contains(&value) {
            return Ok(false);
        }
        self.remove_interval(Interval::singleton(value))?;
        Ok(true)
    }

    /// Adds the members of an interval, which may be empty.
    ///
    /// Binary search for the `k` runs that the interval overlaps or touches: `O(log n + k)`, or
    /// `O(n)` if the number of runs changes, as the runs above the interval then move. Allocates
    /// only if a run is added and there is no capacity for it. To add many intervals at once, use
    /// `extend`.
    ///
    /// # Errors
    ///
    /// Fails only if allocation fails. The set is then unchanged.
    ///
    /// ```
    /// use intervallum::proved::examples::*;
    ///
    /// fn main() -> Result<(), std::boxed::Box<dyn std::error::Error>> {
    ///     let alloc = Global;
    ///     let mut a: IntervalSet<i32> = [(1, 2), (5, 6), (10, 12)].to_interval_set(alloc)?;
    ///     a.insert_interval(Interval::new(3, 8))?;
    ///     assert!(a == [(1, 8), (10, 12)].to_interval_set(alloc)?);
    ///     Ok(())
    /// }
    /// ```
    ///
    /// # Proved
    ///
    /// On success, exactly the numbers of the interval are added; on an error the set is unchanged. It succeeds if the interval is empty, or overlaps or touches a run.
    ///
    /// ```text
    /// ensures ok { OnOk result (IsRunsOf self.new (Union (Covers self.old) (IsBetween interval))) }
    /// ensures err { OnErr result (self.new ≡ self.old) }
    /// ensures empty { HasNone (IsBetween interval) → IsOk result }
    /// ensures in_place { HasSome (Intersection (Covers self.old) (IsBetween (widened interval))) → IsOk result }
    /// ```
    ///
    /// Words: [`IsRunsOf`](crate::definitions#IsRunsOf), [`Union`](crate::definitions#Union), [`Covers`](crate::definitions#Covers), [`IsBetween`](crate::definitions#IsBetween), [`HasNone`](crate::definitions#HasNone), [`HasSome`](crate::definitions#HasSome), [`Intersection`](crate::definitions#Intersection), [`widened`](crate::definitions#widened).
    pub fn insert_interval(&mut self, interval: Interval<B>) -> Result<(), AllocError> {
        self.insert_from(interval, None)
    }

    /// Adds the members of an interval, as [`IntervalSet::insert_interval`] does. The search begins at
    /// the run with the index `place`, which may be any number: it changes how long the search takes,
    /// and nothing else.
    ///
    /// Where the runs before that one lie below the interval and do not touch it, the search goes on
    /// from there by steps that are doubled: `O(log (d + 2) + k)`, if the first of the `k` runs that
    /// the interval overlaps or touches stands `d` runs further. Else it is the binary search of all.
    /// If the number of runs changes, those above the interval move, as they do there.
    ///
    /// # Errors
    ///
    /// Fails only if allocation fails. The set is then unchanged.
    ///
    /// ```
    /// use intervallum::proved::examples::*;
    ///
    /// fn main() -> Result<(), std::boxed::Box<dyn std::error::Error>> {
    ///     let alloc = Global;
    ///     let mut a: IntervalSet<i32> = [(1, 2), (5, 6), (10, 12)].to_interval_set(alloc)?;
    ///     a.insert_interval_near(Interval::new(8, 9), 1)?;
    ///     assert!(a == [(1, 2), (5, 6), (8, 12)].to_interval_set(alloc)?);
    ///     Ok(())
    /// }
    /// ```
    ///
    /// # Proved
    ///
    /// On success, exactly the numbers of the interval are added, whatever `place` is; on an error the set is unchanged. It succeeds if the interval is empty, or overlaps or touches a run.
    ///
    /// ```text
    /// ensures ok { OnOk result (IsRunsOf self.new (Union (Covers self.old) (IsBetween interval))) }
    /// ensures err { OnErr result (self.new ≡ self.old) }
    /// ensures empty { HasNone (IsBetween interval) → IsOk result }
    /// ensures in_place { HasSome (Intersection (Covers self.old) (IsBetween (widened interval))) → IsOk result }
    /// ```
    ///
    /// Words: [`IsRunsOf`](crate::definitions#IsRunsOf), [`Union`](crate::definitions#Union), [`Covers`](crate::definitions#Covers), [`IsBetween`](crate::definitions#IsBetween), [`HasNone`](crate::definitions#HasNone), [`HasSome`](crate::definitions#HasSome), [`Intersection`](crate::definitions#Intersection), [`widened`](crate::definitions#widened).
    pub fn insert_interval_near(
        &mut self,
        interval: Interval<B>,
        place: usize,
    ) -> Result<(), AllocError> {
        self.insert_from(interval, Some(place))
    }

    /// Adds the members of an interval, by a search from a place on, if one is given.
    fn insert_from(&mut self, interval: Interval<B>, place: Option<usize>) -> Result<(), AllocError> {
        let runs = self.as_runs();
        if interval.is_empty() {
            return Ok(());
        }
        interval.in_whole();
        let (start, end) = touched(self, place, &interval);
        let run = joined(runs, start, end, interval);
        self.replace(start, end, Some(run), None)
    }

    /// Removes the members of an interval.
    ///
    /// Binary search for the `k` runs that the interval overlaps: `O(log n + k)`, or `O(n)` if the
    /// number of runs changes, as the runs above the interval then move. Allocates only if a run is
    /// split and there is no capacity for one more.
    ///
    /// # Errors
    ///
    /// Fails only if allocation fails. The set is then unchanged.
    ///
    /// ```
    /// use intervallum::proved::examples::*;
    ///
    /// fn main() -> Result<(), std::boxed::Box<dyn std::error::Error>> {
    ///     let alloc = Global;
    ///     let mut a: IntervalSet<i32> = [(1, 4), (6, 6), (10, 12)].to_interval_set(alloc)?;
    ///     a.remove_interval(Interval::new(3, 10))?;
    ///     assert!(a == [(1, 2), (11, 12)].to_interval_set(alloc)?);
    ///     Ok(())
    /// }
    /// ```
    ///
    /// # Proved
    ///
    /// On success, exactly the numbers of the interval are removed; on an error the set is unchanged. It succeeds if the interval is empty, and unless it lies inside a run and splits it.
    ///
    /// ```text
    /// ensures ok { OnOk result (IsRunsOf self.new (Without (Covers self.old) (IsBetween interval))) }
    /// ensures err { OnErr result (self.new ≡ self.old) }
    /// ensures empty { HasNone (IsBetween interval) → IsOk result }
    /// ensures in_place { ¬ (IsSubset (IsBetween (widened interval)) (Covers self.old)) → IsOk result }
    /// ```
    ///
    /// Words: [`IsRunsOf`](crate::definitions#IsRunsOf), [`Without`](crate::definitions#Without), [`Covers`](crate::definitions#Covers), [`IsBetween`](crate::definitions#IsBetween), [`HasNone`](crate::definitions#HasNone), [`IsSubset`](crate::definitions#IsSubset), [`widened`](crate::definitions#widened).
    pub fn remove_interval(&mut self, interval: Interval<B>) -> Result<(), AllocError> {
        self.remove_from(interval, None)
    }

    /// Removes the members of an interval, as [`IntervalSet::remove_interval`] does. The search begins
    /// at the run with the index `place`, which may be any number: it changes how long the search takes,
    /// and nothing else.
    ///
    /// Where the runs before that one lie below the interval, the search goes on from there by steps
    /// that are doubled: `O(log (d + 2) + k)`, if the first of the `k` runs that the interval overlaps
    /// stands `d` runs further. Else it is the binary search of all. If the number of runs changes,
    /// those above the interval move, as they do there.
    ///
    /// # Errors
    ///
    /// Fails only if allocation fails. The set is then unchanged.
    ///
    /// ```
    /// use intervallum::proved::examples::*;
    ///
    /// fn main() -> Result<(), std::boxed::Box<dyn std::error::Error>> {
    ///     let alloc = Global;
    ///     let mut a: IntervalSet<i32> = [(1, 4), (6, 6), (10, 12)].to_interval_set(alloc)?;
    ///     a.remove_interval_near(Interval::new(11, 20), 2)?;
    ///     assert!(a == [(1, 4), (6, 6), (10, 10)].to_interval_set(alloc)?);
    ///     Ok(())
    /// }
    /// ```
    ///
    /// # Proved
    ///
    /// On success, exactly the numbers of the interval are removed, whatever `place` is; on an error the set is unchanged. It succeeds if the interval is empty, and unless it lies inside a run and splits it.
    ///
    /// ```text
    /// ensures ok { OnOk result (IsRunsOf self.new (Without (Covers self.old) (IsBetween interval))) }
    /// ensures err { OnErr result (self.new ≡ self.old) }
    /// ensures empty { HasNone (IsBetween interval) → IsOk result }
    /// ensures in_place { ¬ (IsSubset (IsBetween (widened interval)) (Covers self.old)) → IsOk result }
    /// ```
    ///
    /// Words: [`IsRunsOf`](crate::definitions#IsRunsOf), [`Without`](crate::definitions#Without), [`Covers`](crate::definitions#Covers), [`IsBetween`](crate::definitions#IsBetween), [`HasNone`](crate::definitions#HasNone), [`IsSubset`](crate::definitions#IsSubset), [`widened`](crate::definitions#widened).
    pub fn remove_interval_near(
        &mut self,
        interval: Interval<B>,
        place: usize,
    ) -> Result<(), AllocError> {
        self.remove_from(interval, Some(place))
    }

    /// Removes the members of an interval, by a search from a place on, if one is given.
    fn remove_from(&mut self, interval: Interval<B>, place: Option<usize>) -> Result<(), AllocError> {
        let runs = self.as_runs();
        if interval.is_empty() {
            return Ok(());
        }
        let (start, end) = span(self, place, interval.lower(), interval.upper());
        if start == end {
            return Ok(());
        }
        let (below, above) = rests(runs, start, end, interval);
        self.replace(start, end, below, above)
    }

    /// Removes all members and keeps the capacity. `O(1)`. Does not allocate.
    ///
    /// ```
    /// use intervallum::proved::examples::*;
    ///
    /// fn main() -> Result<(), std::boxed::Box<dyn std::error::Error>> {
    ///     let alloc = Global;
    ///     let mut a = IntervalSet::new(alloc, 1, 5)?;
    ///     a.clear();
    ///     assert!(a.is_empty());
    ///     Ok(())
    /// }
    /// ```
    ///
    /// # Proved
    ///
    /// The set is empty afterwards.
    ///
    /// ```text
    /// ensures { self.new ≡ [] }
    /// ```
    pub fn clear(&mut self) {
        self.intervals.clear();
        self.size = <B::Output as SizeNumber>::zero();
    }

    /// Removes and returns the least member, or returns `None` if the set is empty. `O(1)`, or
    /// `O(n)` if the member is a run by itself, as the other runs then move. Does not allocate.
    ///
    /// ```
    /// use intervallum::proved::examples::*;
    ///
    /// fn main() -> Result<(), std::boxed::Box<dyn std::error::Error>> {
    ///     let alloc = Global;
    ///     let mut a: IntervalSet<i32> = [(1, 2), (5, 6)].to_interval_set(alloc)?;
    ///     assert_eq!(a.pop_first(), Some(1));
    ///     assert!(a == [(2, 2), (5, 6)].to_interval_set(alloc)?);
    ///     Ok(())
    /// }
    /// ```
    ///
    /// # Proved
    ///
    /// Removes exactly the least member, and returns it; it is in the range. An empty set stays empty, and the result is `None`.
    ///
    /// ```text
    /// ensures none { IfNone result ((self.old ≡ []) × (self.new ≡ [])) }
    /// ensures member { IfSome result (λ v. Covers self.old (B.value v)) }
    /// ensures least { IfSome result (λ v. (z : ℤ) → Covers self.old z → B.value v ≤ℤ z) }
    /// ensures others { IfSome result (λ v. IsRunsOf self.new (Without (Covers self.old) (Only (B.value v)))) }
    /// ensures in_range { IfSome result (λ v. IsBetween B.whole (B.value v)) }
    /// ```
    ///
    /// Words: [`Covers`](crate::definitions#Covers), [`IsRunsOf`](crate::definitions#IsRunsOf), [`Without`](crate::definitions#Without), [`Only`](crate::definitions#Only), [`IsBetween`](crate::definitions#IsBetween).
    pub fn pop_first(&mut self) -> Option<B> {
        let runs = self.as_runs();
        if runs.is_empty() {
            return None;
        }
        let least = self.lower();
        let rest = runs[0].strict_shrink_left(least);
        self.replace(0, 1, if_filled(rest), None).unwrap();
        Some(least)
    }

    /// Removes and returns the greatest member, or returns `None` if the set is empty. `O(1)`. Does
    /// not allocate.
    ///
    /// ```
    /// use intervallum::proved::examples::*;
    ///
    /// fn main() -> Result<(), std::boxed::Box<dyn std::error::Error>> {
    ///     let alloc = Global;
    ///     let mut a: IntervalSet<i32> = [(1, 2), (5, 6)].to_interval_set(alloc)?;
    ///     assert_eq!(a.pop_last(), Some(6));
    ///     assert!(a == [(1, 2), (5, 5)].to_interval_set(alloc)?);
    ///     Ok(())
    /// }
    /// ```
    ///
    /// # Proved
    ///
    /// Removes exactly the greatest member, and returns it; it is in the range. An empty set stays empty, and the result is `None`.
    ///
    /// ```text
    /// ensures none { IfNone result ((self.old ≡ []) × (self.new ≡ [])) }
    /// ensures member { IfSome result (λ v. Covers self.old (B.value v)) }
    /// ensures greatest { IfSome result (λ v. (z : ℤ) → Covers self.old z → z ≤ℤ B.value v) }
    /// ensures others { IfSome result (λ v. IsRunsOf self.new (Without (Covers self.old) (Only (B.value v)))) }
    /// ensures in_range { IfSome result (λ v. IsBetween B.whole (B.value v)) }
    /// ```
    ///
    /// Words: [`Covers`](crate::definitions#Covers), [`IsRunsOf`](crate::definitions#IsRunsOf), [`Without`](crate::definitions#Without), [`Only`](crate::definitions#Only), [`IsBetween`](crate::definitions#IsBetween).
    pub fn pop_last(&mut self) -> Option<B> {
        let runs = self.as_runs();
        let count = runs.len();
        if count == 0 {
            return None;
        }
        let greatest = self.upper();
        let rest = runs[count - 1].strict_shrink_right(greatest);
        self.replace(count - 1, count, if_filled(rest), None)
            .unwrap();
        Some(greatest)
    }

    /// Puts at most two runs in the place of those from `start` to before `end`. Fails only if it
    /// puts more runs than it removes, and allocation fails.
    fn replace(
        &mut self,
        start: usize,
        end: usize,
        first: Option<Interval<B>>,
        second: Option<Interval<B>>,
    ) -> Result<(), AllocError> {
        let gone = total_size(&self.intervals[start..end]);
        let kept = shrunk::<B>(self.size, gone);
        let size = grown::<B>(grown::<B>(kept, size_of(first)), size_of(second));
        replace_runs(&mut self.intervals, start, end, first, second)?;
        self.size = size;
        Ok(())
    }
}
