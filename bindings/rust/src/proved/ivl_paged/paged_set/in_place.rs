// Written by bindings/rust/extract from crates/ivl_paged/src/paged_set/in_place.rt.
//! Set operations that change the left set.

#[allow(unused_imports)]
use crate::rattle::prelude::*;
use super::PagedSet;
use crate::proved::intervallum::interval_set::IntervalSet;
use crate::proved::intervallum::ops::{Complement, Difference, Intersection, Union};
use crate::proved::intervallum::width::Width;
use crate::rattle::std::alloc::AllocError;

/// How many times as many runs the set must have for edits by the runs of the other set.
const FAR_MORE: usize = 64;

/// How many runs the other set may have for that: an edit may move the list of pages.
const MOST_EDITS: usize = 256;

/// Whether edits by the runs of the other set are less work than a walk over both sets.
fn is_far_shorter(few: usize, many: usize) -> bool {
    few <= MOST_EDITS && few < many / FAR_MORE
}

impl<B: Width> PagedSet<B> {
    /// Adds the members of `other`, as `*self = self.union(other)?` does.
    ///
    /// If `other` has far fewer runs (less than a 64th, and 256 at most), adds these `k` runs one by one:
    /// each is two searches and an edit of one page, as by [`PagedSet::insert_interval`], and no other page
    /// is touched: `O(k log n)`. Else makes the union as a new set and puts it in place: `O(n + m)`.
    ///
    /// # Errors
    ///
    /// Fails only if allocation fails. The set is then unchanged.
    ///
    /// ```
    /// use intervallum::proved::examples::*;
    ///
    /// fn main() -> Result<(), std::boxed::Box<dyn std::error::Error>> {
    ///     let alloc = Global;
    ///     let mut a = PagedSet::of_set(&IntervalSet::new(alloc, 1, 5)?)?;
    ///     a.union_with(&PagedSet::of_set(&IntervalSet::new(alloc, 4, 9)?)?)?;
    ///     assert!(a.to_set()? == IntervalSet::new(alloc, 1, 9)?);
    ///     Ok(())
    /// }
    /// ```
    ///
    /// # Proved
    ///
    /// On success, exactly the members of `other` are added; on an error the set is unchanged.
    ///
    /// ```text
    /// ensures ok { OnOk result (IsRunsOf self.new (Union (Covers self.old) (Covers other.now))) }
    /// ensures err { OnErr result (self.new ≡ self.old) }
    /// ```
    ///
    /// Words: [`IsRunsOf`](crate::definitions#IsRunsOf), [`Union`](crate::definitions#Union), [`Covers`](crate::definitions#Covers).
    pub fn union_with(&mut self, other: &PagedSet<B>) -> Result<(), AllocError> {
        if is_far_shorter(other.interval_count(), self.interval_count()) {
            return self.union_with_few(&other.to_set()?);
        }
        let all = self.union(other)?;
        *self = all;
        Ok(())
    }

    /// Adds the members of `list`, whose runs stand in one list. Costs as much as
    /// [`PagedSet::union_with`].
    ///
    /// # Errors
    ///
    /// Fails only if allocation fails. The set is then unchanged.
    ///
    /// ```
    /// use intervallum::proved::examples::*;
    ///
    /// fn main() -> Result<(), std::boxed::Box<dyn std::error::Error>> {
    ///     let alloc = Global;
    ///     let mut a = PagedSet::of_set(&IntervalSet::new(alloc, 1, 5)?)?;
    ///     a.union_with_list(&IntervalSet::new(alloc, 4, 9)?)?;
    ///     assert!(a.to_set()? == IntervalSet::new(alloc, 1, 9)?);
    ///     Ok(())
    /// }
    /// ```
    ///
    /// # Proved
    ///
    /// On success, exactly the members of `list` are added; on an error the set is unchanged.
    ///
    /// ```text
    /// ensures ok { OnOk result (IsRunsOf self.new (Union (Covers self.old) (Covers list.now))) }
    /// ensures err { OnErr result (self.new ≡ self.old) }
    /// ```
    ///
    /// Words: [`IsRunsOf`](crate::definitions#IsRunsOf), [`Union`](crate::definitions#Union), [`Covers`](crate::definitions#Covers).
    pub fn union_with_list(&mut self, list: &IntervalSet<B>) -> Result<(), AllocError> {
        if is_far_shorter(list.interval_count(), self.interval_count()) {
            return self.union_with_few(list);
        }
        let all = self.union(list)?;
        *self = all;
        Ok(())
    }

    /// Removes the members of `other`, as `*self = self.difference(other)?` does.
    ///
    /// If `other` has far fewer runs (less than a 64th, and 256 at most), removes these `k` runs one by
    /// one: each is two searches and an edit of the pages that it overlaps, as by
    /// [`PagedSet::remove_interval`], and no other page is touched: `O(k log n)`. Else makes the difference
    /// as a new set and puts it in place: `O(n + m)`.
    ///
    /// # Errors
    ///
    /// Fails only if allocation fails. The set is then unchanged.
    ///
    /// ```
    /// use intervallum::proved::examples::*;
    ///
    /// fn main() -> Result<(), std::boxed::Box<dyn std::error::Error>> {
    ///     let alloc = Global;
    ///     let mut a = PagedSet::of_set(&IntervalSet::new(alloc, 1, 9)?)?;
    ///     a.difference_with(&PagedSet::of_set(&IntervalSet::new(alloc, 4, 5)?)?)?;
    ///     assert!(a.to_set()? == [(1, 3), (6, 9)].to_interval_set(alloc)?);
    ///     Ok(())
    /// }
    /// ```
    ///
    /// # Proved
    ///
    /// On success, exactly the members of `other` are removed; on an error the set is unchanged.
    ///
    /// ```text
    /// ensures ok { OnOk result (IsRunsOf self.new (Without (Covers self.old) (Covers other.now))) }
    /// ensures err { OnErr result (self.new ≡ self.old) }
    /// ```
    ///
    /// Words: [`IsRunsOf`](crate::definitions#IsRunsOf), [`Without`](crate::definitions#Without), [`Covers`](crate::definitions#Covers).
    pub fn difference_with(&mut self, other: &PagedSet<B>) -> Result<(), AllocError> {
        if is_far_shorter(other.interval_count(), self.interval_count()) {
            return self.difference_with_few(&other.to_set()?);
        }
        let rest = self.difference(other)?;
        *self = rest;
        Ok(())
    }

    /// Removes the members of `list`, whose runs stand in one list. Costs as much as
    /// [`PagedSet::difference_with`].
    ///
    /// # Errors
    ///
    /// Fails only if allocation fails. The set is then unchanged.
    ///
    /// ```
    /// use intervallum::proved::examples::*;
    ///
    /// fn main() -> Result<(), std::boxed::Box<dyn std::error::Error>> {
    ///     let alloc = Global;
    ///     let mut a = PagedSet::of_set(&IntervalSet::new(alloc, 1, 9)?)?;
    ///     a.difference_with_list(&IntervalSet::new(alloc, 4, 5)?)?;
    ///     assert!(a.to_set()? == [(1, 3), (6, 9)].to_interval_set(alloc)?);
    ///     Ok(())
    /// }
    /// ```
    ///
    /// # Proved
    ///
    /// On success, exactly the members of `list` are removed; on an error the set is unchanged.
    ///
    /// ```text
    /// ensures ok { OnOk result (IsRunsOf self.new (Without (Covers self.old) (Covers list.now))) }
    /// ensures err { OnErr result (self.new ≡ self.old) }
    /// ```
    ///
    /// Words: [`IsRunsOf`](crate::definitions#IsRunsOf), [`Without`](crate::definitions#Without), [`Covers`](crate::definitions#Covers).
    pub fn difference_with_list(&mut self, list: &IntervalSet<B>) -> Result<(), AllocError> {
        if is_far_shorter(list.interval_count(), self.interval_count()) {
            return self.difference_with_few(list);
        }
        let rest = self.difference(list)?;
        *self = rest;
        Ok(())
    }

    /// Keeps the members of `other` alone, as `*self = self.intersection(other)?` does.
    ///
    /// If `other` has far fewer runs (less than a 64th, and 256 at most), removes what lies between them
    /// as [`PagedSet::difference_with`] does: the pages there are dropped, and no other page is touched but
    /// those of the ends. Else makes the intersection as a new set and puts it in place: `O(n + m)`.
    ///
    /// # Errors
    ///
    /// Fails only if allocation fails. The set is then unchanged.
    ///
    /// ```
    /// use intervallum::proved::examples::*;
    ///
    /// fn main() -> Result<(), std::boxed::Box<dyn std::error::Error>> {
    ///     let alloc = Global;
    ///     let mut a = PagedSet::of_set(&IntervalSet::new(alloc, 1, 5)?)?;
    ///     a.intersect_with(&PagedSet::of_set(&IntervalSet::new(alloc, 4, 9)?)?)?;
    ///     assert!(a.to_set()? == IntervalSet::new(alloc, 4, 5)?);
    ///     Ok(())
    /// }
    /// ```
    ///
    /// # Proved
    ///
    /// On success, exactly the members that are in `other` are kept; on an error the set is unchanged.
    ///
    /// ```text
    /// ensures ok { OnOk result (IsRunsOf self.new (Intersection (Covers self.old) (Covers other.now))) }
    /// ensures err { OnErr result (self.new ≡ self.old) }
    /// ```
    ///
    /// Words: [`IsRunsOf`](crate::definitions#IsRunsOf), [`Intersection`](crate::definitions#Intersection), [`Covers`](crate::definitions#Covers).
    pub fn intersect_with(&mut self, other: &PagedSet<B>) -> Result<(), AllocError> {
        if is_far_shorter(other.interval_count(), self.interval_count()) {
            return self.intersect_with_few(&other.to_set()?);
        }
        let common = self.intersection(other)?;
        *self = common;
        Ok(())
    }

    /// Keeps the members of `list` alone, whose runs stand in one list. Costs as much as
    /// [`PagedSet::intersect_with`].
    ///
    /// # Errors
    ///
    /// Fails only if allocation fails. The set is then unchanged.
    ///
    /// ```
    /// use intervallum::proved::examples::*;
    ///
    /// fn main() -> Result<(), std::boxed::Box<dyn std::error::Error>> {
    ///     let alloc = Global;
    ///     let mut a = PagedSet::of_set(&IntervalSet::new(alloc, 1, 5)?)?;
    ///     a.intersect_with_list(&IntervalSet::new(alloc, 4, 9)?)?;
    ///     assert!(a.to_set()? == IntervalSet::new(alloc, 4, 5)?);
    ///     Ok(())
    /// }
    /// ```
    ///
    /// # Proved
    ///
    /// On success, exactly the members that are in `list` are kept; on an error the set is unchanged.
    ///
    /// ```text
    /// ensures ok { OnOk result (IsRunsOf self.new (Intersection (Covers self.old) (Covers list.now))) }
    /// ensures err { OnErr result (self.new ≡ self.old) }
    /// ```
    ///
    /// Words: [`IsRunsOf`](crate::definitions#IsRunsOf), [`Intersection`](crate::definitions#Intersection), [`Covers`](crate::definitions#Covers).
    pub fn intersect_with_list(&mut self, list: &IntervalSet<B>) -> Result<(), AllocError> {
        if is_far_shorter(list.interval_count(), self.interval_count()) {
            return self.intersect_with_few(list);
        }
        let common = self.intersection(list)?;
        *self = common;
        Ok(())
    }

    /// Adds the members of a set of few runs.
    fn union_with_few(&mut self, few: &IntervalSet<B>) -> Result<(), AllocError> {
        few.in_whole();
        self.insert_runs(few.runs())
    }

    /// Removes the members of a set of few runs.
    fn difference_with_few(&mut self, few: &IntervalSet<B>) -> Result<(), AllocError> {
        few.in_whole();
        self.remove_runs(few.runs())
    }

    /// Removes the members that are not in a set of few runs.
    fn intersect_with_few(&mut self, few: &IntervalSet<B>) -> Result<(), AllocError> {
        // members are in the range, so in what lies between the few unless in them
        self.in_whole();
        let between = few.complement()?;
        between.in_whole();
        self.remove_runs(between.runs())
    }
}
