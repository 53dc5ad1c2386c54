// Written by bindings/rust/extract from crates/ivl_paged/src/paged_set.rt.
//! A set of integers whose runs stand in pages.

#[allow(unused_imports)]
use crate::rattle::prelude::*;

mod best_fit;
mod bounds;
mod clone;
mod conversions;
mod equality;
mod first_fit;
mod in_place;
mod inclusion;
mod interval_operands;
mod iter;
mod list_operands;
mod longest_run;
mod members;
mod neighbours;
mod overlaps;
mod rank;
mod retain;
mod run_edits;
mod set_operands;
mod split_off;
mod text;
mod walks;
mod within;

use crate::proved::ivl_paged::page_list::PageList;
use crate::proved::ivl_paged::pages;
use crate::proved::intervallum::interval::Interval;
use crate::proved::intervallum::interval_set::IntervalSet;
use crate::proved::intervallum::ops::{Collection, IsEmpty, Singleton};
use crate::proved::intervallum::width::Width;
pub use iter::Runs;
pub use members::Members;
use crate::rattle::std::alloc::{AllocError, Global};

/// A set of integers for many runs that change. A contract sees the list of its runs, each a pair
/// of numbers, as it does of an `IntervalSet`.
///
/// The runs stand in pages of fewer than 128. The least members of the pages stand in a list of their
/// own. A search for a value is a binary search of that list, and then looks at every 16th run of one
/// page and at 16 in a row: `O(log n)`. An edit in one page moves the runs of that page. A page that
/// gets 128 is split in two, which moves both lists; if there is no memory for that, the page grows. A
/// page that gets at most half of that is joined with a neighbour if both then have at most 96. A page
/// is removed when it is empty; the first one is passed over and keeps its memory, until there is one such
/// for each 16 others.
///
/// If an allocation fails, the set is unchanged.
///
/// ```
/// use intervallum::proved::examples::*;
///
/// fn main() -> Result<(), std::boxed::Box<dyn std::error::Error>> {
///     let alloc = Global;
///     let mut a = PagedSet::new(alloc);
///     a.insert_interval(Interval::new(1, 5))?;
///     assert!(a.remove(3)? && a.insert(9)?);
///     assert!(a.to_set()? == [(1, 2), (4, 5), (9, 9)].to_interval_set(alloc)?);
///     Ok(())
/// }
/// ```
pub struct PagedSet<B: Width> {
    alloc: Global,
    pages: PageList<B>,
}

/// Proved, with these words of the trait:
///
/// ```text
/// members = { Covers }
/// number = { B.value }
/// ```
///
/// Words: [`Covers`](crate::definitions#Covers).
impl<B: Width> Collection for PagedSet<B> {
    type Item = B;
}

impl<B: Width> PagedSet<B> {
    /// Returns the empty set. `O(1)`. Does not allocate.
    ///
    /// ```
    /// use intervallum::proved::examples::*;
    ///
    /// fn main() -> Result<(), std::boxed::Box<dyn std::error::Error>> {
    ///     let alloc = Global;
    ///     assert!(PagedSet::<i64>::new(alloc).is_empty());
    ///     Ok(())
    /// }
    /// ```
    ///
    /// # Proved
    ///
    /// The result is the empty set.
    ///
    /// ```text
    /// ensures { result ≡ [] }
    /// ```
    pub fn new(alloc: Global) -> Self {
        PagedSet {
            alloc,
            pages: PageList::new(alloc),
        }
    }

    /// Returns the set with the members of another, whose runs are copied into pages of 96 runs that
    /// have room for 128. `O(n)`. Fails only if allocation fails.
    ///
    /// ```
    /// use intervallum::proved::examples::*;
    ///
    /// fn main() -> Result<(), std::boxed::Box<dyn std::error::Error>> {
    ///     let alloc = Global;
    ///     let list: IntervalSet<i32> = [(1, 2), (5, 6)].to_interval_set(alloc)?;
    ///     assert!(PagedSet::of_set(&list)?.to_set()? == list);
    ///     Ok(())
    /// }
    /// ```
    ///
    /// # Proved
    ///
    /// On success, the result has the runs of `set`.
    ///
    /// ```text
    /// ensures { IfOk result (λ L. L ≡ set.now) }
    /// ```
    pub fn of_set(set: &IntervalSet<B>) -> Result<Self, AllocError> {
        set.in_whole();
        let alloc = set.allocator();
        let pages = pages::pages_of(alloc, set.iter().as_slice())?;
        Ok(PagedSet { alloc, pages })
    }

    /// Returns true exactly when the set has no members. `O(1)`. Does not allocate.
    ///
    /// ```
    /// use intervallum::proved::examples::*;
    ///
    /// fn main() -> Result<(), std::boxed::Box<dyn std::error::Error>> {
    ///     let alloc = Global;
    ///     let mut a = PagedSet::new(alloc);
    ///     assert!(a.is_empty());
    ///     a.insert(5)?;
    ///     assert!(!a.is_empty());
    ///     Ok(())
    /// }
    /// ```
    ///
    /// # Proved
    ///
    /// True exactly when there is no member, and so no run.
    ///
    /// ```text
    /// ensures members { IsTrue result ↔ HasNone (Covers self.now) }
    /// ensures none { IsTrue result ↔ (self.now ≡ []) }
    /// ```
    ///
    /// Words: [`HasNone`](crate::definitions#HasNone), [`Covers`](crate::definitions#Covers).
    pub fn is_empty(&self) -> bool {
        if self.pages.is_empty() {
            return true;
        }
        // a page has a member
        self.pages.head(0);
        false
    }

    /// Returns true exactly when `value`, which may be any value of its type, is a member. `O(log n)`.
    /// Does not allocate.
    ///
    /// ```
    /// use intervallum::proved::examples::*;
    ///
    /// fn main() -> Result<(), std::boxed::Box<dyn std::error::Error>> {
    ///     let alloc = Global;
    ///     let mut a = PagedSet::new(alloc);
    ///     a.insert(5)?;
    ///     assert!(a.contains(&5) && !a.contains(&3));
    ///     Ok(())
    /// }
    /// ```
    ///
    /// # Proved
    ///
    /// True exactly when the value is a member.
    ///
    /// ```text
    /// ensures { IsTrue result ↔ Covers self.now (B.value value.now) }
    /// ```
    ///
    /// Words: [`Covers`](crate::definitions#Covers).
    pub fn contains(&self, value: &B) -> bool {
        let count = self.pages.starts_up_to(*value);
        if count == 0 {
            return false;
        }
        self.pages.page(count - 1).contains(*value)
    }

    /// Adds a value. Returns true exactly when it was not a member before.
    ///
    /// The caller must ensure that the value is in the range. Check with
    /// `Interval::in_range(value, value)`.
    ///
    /// Searches one page, and moves its runs: `O(log n)`, and `O(n / page)` where a page is split, once
    /// in about as many edits as a page has runs: the list of pages then moves.
    ///
    /// # Errors
    ///
    /// Fails only if allocation fails, and never if the value or one beside it is a member. The set is
    /// then unchanged.
    ///
    /// ```
    /// use intervallum::proved::examples::*;
    ///
    /// fn main() -> Result<(), std::boxed::Box<dyn std::error::Error>> {
    ///     let alloc = Global;
    ///     let mut a = PagedSet::new(alloc);
    ///     assert!(Interval::in_range(3, 3), "it is in the range");
    ///     assert!(a.insert(3)? && !a.insert(3)?);
    ///     Ok(())
    /// }
    /// ```
    ///
    /// # Proved
    ///
    /// On success, exactly the value is added, and the answer is true exactly when it was no member; on an error the set is unchanged. It succeeds if the value or a number next to it is a member.
    ///
    /// ```text
    /// requires { IsBetween B.whole (B.value value) }
    /// ensures members { OnOk result (IsRunsOf self.new (Union (Covers self.old) (Only (B.value value)))) }
    /// ensures is_new { IfOk result (λ is_new. IsTrue is_new ↔ ¬ (Covers self.old (B.value value))) }
    /// ensures err { OnErr result (self.new ≡ self.old) }
    /// ensures in_place { HasSome (Intersection (Covers self.old) (IsBetween (widened (B.value value, B.value value)))) → IsOk result }
    /// ```
    ///
    /// Words: [`IsBetween`](crate::definitions#IsBetween), [`IsRunsOf`](crate::definitions#IsRunsOf), [`Union`](crate::definitions#Union), [`Covers`](crate::definitions#Covers), [`Only`](crate::definitions#Only), [`HasSome`](crate::definitions#HasSome), [`Intersection`](crate::definitions#Intersection), [`widened`](crate::definitions#widened).
    pub fn insert(&mut self, value: B) -> Result<bool, AllocError> {
        self.in_whole();
        let was_member = self.add(Interval::singleton(value))?;
        Ok(!was_member)
    }

    /// Removes a value, which may be any value of its type. Returns true exactly when it was a
    /// member.
    ///
    /// Costs as much as [`PagedSet::insert`].
    ///
    /// # Errors
    ///
    /// Fails only if allocation fails, and never unless the numbers on both sides are members: only then
    /// is a run split. The set is then unchanged.
    ///
    /// ```
    /// use intervallum::proved::examples::*;
    ///
    /// fn main() -> Result<(), std::boxed::Box<dyn std::error::Error>> {
    ///     let alloc = Global;
    ///     let mut a = PagedSet::new(alloc);
    ///     a.insert(3)?;
    ///     assert!(a.remove(3)? && !a.remove(3)?);
    ///     Ok(())
    /// }
    /// ```
    ///
    /// # Proved
    ///
    /// On success, exactly the value is removed, and the answer is true exactly when it was a member; on an error the set is unchanged. It succeeds unless the value and both numbers next to it are members.
    ///
    /// ```text
    /// ensures members { OnOk result (IsRunsOf self.new (Without (Covers self.old) (Only (B.value value)))) }
    /// ensures was_member { IfOk result (λ was_member. IsTrue was_member ↔ Covers self.old (B.value value)) }
    /// ensures err { OnErr result (self.new ≡ self.old) }
    /// ensures in_place { ¬ (IsSubset (IsBetween (widened (B.value value, B.value value))) (Covers self.old)) → IsOk result }
    /// ```
    ///
    /// Words: [`IsRunsOf`](crate::definitions#IsRunsOf), [`Without`](crate::definitions#Without), [`Covers`](crate::definitions#Covers), [`Only`](crate::definitions#Only), [`IsSubset`](crate::definitions#IsSubset), [`IsBetween`](crate::definitions#IsBetween), [`widened`](crate::definitions#widened).
    pub fn remove(&mut self, value: B) -> Result<bool, AllocError> {
        self.in_whole();
        if !Interval::in_range(value, value) {
            return Ok(false);
        }
        self.take_away(Interval::singleton(value))
    }

    /// Adds the members of an interval, which may be empty.
    ///
    /// Binary search for the `k` pages that the interval overlaps or touches. In one page, moves
    /// its runs; of several pages only the first and the last are read and changed, and those between
    /// removed: `O(log n)`, and `O(n / page)` where a page goes or is split: the list of pages then moves.
    /// Allocates only if a run is added, or to split a page that is full.
    ///
    /// # Errors
    ///
    /// Fails only if allocation fails, and never if the interval overlaps or touches a run. The set is
    /// then unchanged.
    ///
    /// ```
    /// use intervallum::proved::examples::*;
    ///
    /// fn main() -> Result<(), std::boxed::Box<dyn std::error::Error>> {
    ///     let alloc = Global;
    ///     let mut a = PagedSet::new(alloc);
    ///     a.insert_interval(Interval::new(3, 8))?;
    ///     assert!(a.contains(&3) && a.contains(&8) && !a.contains(&9));
    ///     Ok(())
    /// }
    /// ```
    ///
    /// # Proved
    ///
    /// On success, exactly the numbers of the interval are added; on an error the set is unchanged. It succeeds if the interval is empty, or overlaps or touches a run.
    ///
    /// ```text
    /// ensures ok { OnOk result (IsRunsOf self.new (Union (Covers self.old) (IsBetween interval))) }
    /// ensures err { OnErr result (self.new ≡ self.old) }
    /// ensures empty { HasNone (IsBetween interval) → IsOk result }
    /// ensures in_place { HasSome (Intersection (Covers self.old) (IsBetween (widened interval))) → IsOk result }
    /// ```
    ///
    /// Words: [`IsRunsOf`](crate::definitions#IsRunsOf), [`Union`](crate::definitions#Union), [`Covers`](crate::definitions#Covers), [`IsBetween`](crate::definitions#IsBetween), [`HasNone`](crate::definitions#HasNone), [`HasSome`](crate::definitions#HasSome), [`Intersection`](crate::definitions#Intersection), [`widened`](crate::definitions#widened).
    pub fn insert_interval(&mut self, interval: Interval<B>) -> Result<(), AllocError> {
        self.in_whole();
        if interval.is_empty() {
            return Ok(());
        }
        self.add(interval)?;
        Ok(())
    }

    /// Adds the members of an interval. Returns true exactly when its first number was a member.
    fn add(&mut self, interval: Interval<B>) -> Result<bool, AllocError> {
        interval.in_whole();
        if self.pages.is_empty() {
            pages::push_first(self.alloc, &mut self.pages, interval)?;
            return Ok(false);
        }
        pages::insert_interval(&mut self.pages, interval)
    }

    /// Removes the members of an interval, which may be empty.
    ///
    /// Binary search for the `k` pages that the interval overlaps, of which the first and the last
    /// are cut and the others removed: `O(log n)`, and `O(n / page)` where a page goes or is split: the
    /// list of pages then moves. Allocates only if a run is split, or to join pages that have become short.
    ///
    /// # Errors
    ///
    /// Fails only if allocation fails. The set is then unchanged.
    ///
    /// ```
    /// use intervallum::proved::examples::*;
    ///
    /// fn main() -> Result<(), std::boxed::Box<dyn std::error::Error>> {
    ///     let alloc = Global;
    ///     let mut a = PagedSet::new(alloc);
    ///     a.insert_interval(Interval::new(1, 9))?;
    ///     a.remove_interval(Interval::new(3, 8))?;
    ///     assert!(a.contains(&2) && !a.contains(&3) && a.contains(&9));
    ///     Ok(())
    /// }
    /// ```
    ///
    /// # Proved
    ///
    /// On success, exactly the numbers of the interval are removed; on an error the set is unchanged. It succeeds if the interval is empty, and unless it lies inside a run and splits it.
    ///
    /// ```text
    /// ensures ok { OnOk result (IsRunsOf self.new (Without (Covers self.old) (IsBetween interval))) }
    /// ensures err { OnErr result (self.new ≡ self.old) }
    /// ensures empty { HasNone (IsBetween interval) → IsOk result }
    /// ensures in_place { ¬ (IsSubset (IsBetween (widened interval)) (Covers self.old)) → IsOk result }
    /// ```
    ///
    /// Words: [`IsRunsOf`](crate::definitions#IsRunsOf), [`Without`](crate::definitions#Without), [`Covers`](crate::definitions#Covers), [`IsBetween`](crate::definitions#IsBetween), [`HasNone`](crate::definitions#HasNone), [`IsSubset`](crate::definitions#IsSubset), [`widened`](crate::definitions#widened).
    pub fn remove_interval(&mut self, interval: Interval<B>) -> Result<(), AllocError> {
        self.in_whole();
        if interval.is_empty() {
            return Ok(());
        }
        self.take_away(interval)?;
        Ok(())
    }

    /// Removes the members of an interval. Returns true exactly when its first number was a member.
    fn take_away(&mut self, interval: Interval<B>) -> Result<bool, AllocError> {
        if self.pages.is_empty() {
            return Ok(false);
        }
        pages::remove_interval(&mut self.pages, interval)
    }

    /// Removes and returns the least member, or returns `None` if the set is empty. Searches nothing:
    /// amortized `O(1)`, where the runs of the first page may move. A page that then has no runs is
    /// passed over; once there is one for each 16 others, the list of pages moves. Never fails.
    ///
    /// ```
    /// use intervallum::proved::examples::*;
    ///
    /// fn main() -> Result<(), std::boxed::Box<dyn std::error::Error>> {
    ///     let alloc = Global;
    ///     let mut a = PagedSet::new(alloc);
    ///     a.insert_interval(Interval::new(1, 5))?;
    ///     assert_eq!(a.pop_first(), Some(1));
    ///     assert!(!a.contains(&1) && a.contains(&2));
    ///     Ok(())
    /// }
    /// ```
    ///
    /// # Proved
    ///
    /// Removes exactly the least member, and returns it; it is in the range. An empty set stays empty, and the result is `None`.
    ///
    /// ```text
    /// ensures none { IfNone result ((self.old ≡ []) × (self.new ≡ [])) }
    /// ensures member { IfSome result (λ v. Covers self.old (B.value v)) }
    /// ensures least { IfSome result (λ v. (z : ℤ) → Covers self.old z → B.value v ≤ℤ z) }
    /// ensures others { IfSome result (λ v. IsRunsOf self.new (Without (Covers self.old) (Only (B.value v)))) }
    /// ensures in_range { IfSome result (λ v. IsBetween B.whole (B.value v)) }
    /// ```
    ///
    /// Words: [`Covers`](crate::definitions#Covers), [`IsRunsOf`](crate::definitions#IsRunsOf), [`Without`](crate::definitions#Without), [`Only`](crate::definitions#Only), [`IsBetween`](crate::definitions#IsBetween).
    pub fn pop_first(&mut self) -> Option<B> {
        self.in_whole();
        if self.pages.is_empty() {
            return None;
        }
        Some(pages::pop_first(&mut self.pages))
    }

    /// Removes and returns the greatest member, or returns `None` if the set is empty. `O(log n)`.
    /// Never fails.
    ///
    /// ```
    /// use intervallum::proved::examples::*;
    ///
    /// fn main() -> Result<(), std::boxed::Box<dyn std::error::Error>> {
    ///     let alloc = Global;
    ///     let mut a = PagedSet::new(alloc);
    ///     a.insert_interval(Interval::new(1, 5))?;
    ///     assert_eq!(a.pop_last(), Some(5));
    ///     assert!(!a.contains(&5) && a.contains(&4));
    ///     Ok(())
    /// }
    /// ```
    ///
    /// # Proved
    ///
    /// Removes exactly the greatest member, and returns it; it is in the range. An empty set stays empty, and the result is `None`.
    ///
    /// ```text
    /// ensures none { IfNone result ((self.old ≡ []) × (self.new ≡ [])) }
    /// ensures member { IfSome result (λ v. Covers self.old (B.value v)) }
    /// ensures greatest { IfSome result (λ v. (z : ℤ) → Covers self.old z → z ≤ℤ B.value v) }
    /// ensures others { IfSome result (λ v. IsRunsOf self.new (Without (Covers self.old) (Only (B.value v)))) }
    /// ensures in_range { IfSome result (λ v. IsBetween B.whole (B.value v)) }
    /// ```
    ///
    /// Words: [`Covers`](crate::definitions#Covers), [`IsRunsOf`](crate::definitions#IsRunsOf), [`Without`](crate::definitions#Without), [`Only`](crate::definitions#Only), [`IsBetween`](crate::definitions#IsBetween).
    pub fn pop_last(&mut self) -> Option<B> {
        self.in_whole();
        match self.last() {
            Some(greatest) => {
                self.remove_interval(Interval::singleton(greatest)).unwrap();
                Some(greatest)
            }
            None => None,
        }
    }

    /// Removes all members. Keeps the capacity of the list of pages. `O(n / page)`: drops each page.
    /// Does not allocate.
    ///
    /// ```
    /// use intervallum::proved::examples::*;
    ///
    /// fn main() -> Result<(), std::boxed::Box<dyn std::error::Error>> {
    ///     let alloc = Global;
    ///     let mut a = PagedSet::new(alloc);
    ///     a.insert_interval(Interval::new(1, 9))?;
    ///     a.clear();
    ///     assert!(a.is_empty());
    ///     Ok(())
    /// }
    /// ```
    ///
    /// # Proved
    ///
    /// The set is empty afterwards.
    ///
    /// ```text
    /// ensures { self.new ≡ [] }
    /// ```
    pub fn clear(&mut self) {
        self.pages.clear();
    }

    /// Does nothing: its contract states that the runs are maximal and in the range.
    ///
    /// ```
    /// use intervallum::proved::examples::*;
    ///
    /// fn main() -> Result<(), std::boxed::Box<dyn std::error::Error>> {
    ///     let alloc = Global;
    ///     let a = PagedSet::<i32>::new(alloc);
    ///     a.in_whole(); // a proof knows from here on that the members of `a` are in the range
    ///     assert!(!a.contains(&i32::MIN));
    ///     Ok(())
    /// }
    /// ```
    ///
    /// # Proved
    ///
    /// The runs are ascending, lie in the range, and neither overlap nor touch.
    ///
    /// ```text
    /// ensures { IsRunListIn B.whole self.now }
    /// ```
    ///
    /// Words: [`IsRunListIn`](crate::definitions#IsRunListIn).
    pub fn in_whole(&self) {
        let _pages = &self.pages;
    }

    /// Returns the set with its runs in one vector, which grows as it is filled. `O(n)`. Fails only
    /// if allocation fails.
    ///
    /// ```
    /// use intervallum::proved::examples::*;
    ///
    /// fn main() -> Result<(), std::boxed::Box<dyn std::error::Error>> {
    ///     let alloc = Global;
    ///     let mut a = PagedSet::new(alloc);
    ///     a.insert_interval(Interval::new(1, 9))?;
    ///     assert!(a.to_set()? == IntervalSet::new(alloc, 1, 9)?);
    ///     Ok(())
    /// }
    /// ```
    ///
    /// # Proved
    ///
    /// On success, the result has the runs of the set.
    ///
    /// ```text
    /// ensures { IfOk result (λ L. L ≡ self.now) }
    /// ```
    pub fn to_set(&self) -> Result<IntervalSet<B>, AllocError> {
        let mut runs = Vec::new(self.alloc);
        for page in self.pages.as_slice() {
            runs.extend_from_slice(page.set().iter().as_slice())?;
        }
        Ok(IntervalSet::from_runs(runs))
    }
}
