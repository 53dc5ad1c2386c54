// Written by bindings/rust/extract from crates/ivl_paged/src/paged_set/iter.rt.
//! Iteration over the runs of a set, from both ends.

#[allow(unused_imports)]
use crate::rattle::prelude::*;
use super::PagedSet;
use crate::proved::ivl_paged::page::Page;
use crate::proved::intervallum::interval::Interval;
use crate::proved::intervallum::width::Width;
use crate::rattle::std::iter::FusedIterator;

use crate::rattle::std::mem;

/// A double-ended iterator over the runs of a set, ascending, as `iter` returns it. A contract sees
/// the runs that are left.
///
/// No call allocates.
///
/// ```
/// use intervallum::proved::examples::*;
///
/// fn main() -> Result<(), std::boxed::Box<dyn std::error::Error>> {
///     let alloc = Global;
///     let list: IntervalSet<i32> = [(1, 2), (5, 6), (8, 9)].to_interval_set(alloc)?;
///     let a = PagedSet::of_set(&list)?;
///     let mut left = a.iter();
///     assert!(left.next() == Some(Interval::new(1, 2)));
///     assert!(left.next_back() == Some(Interval::new(8, 9)));
///     assert!(left.next() == Some(Interval::new(5, 6)) && left.next().is_none());
///     Ok(())
/// }
/// ```
#[derive(Clone)]
pub struct Runs<'a, B: Width> {
    first: &'a [Interval<B>],
    between: &'a [Page<B>],
    last: &'a [Interval<B>],
}

/// Proved, with these words of the trait:
///
/// It yields the first run that is left, or `None` if none is.
///
/// ```text
/// next_gives = { YieldsFirst (λ left. left) }
/// remaining = { item_count (λ left. left) }
/// ```
impl<'a, B: Width> Iterator for Runs<'a, B> {
    type Item = Interval<B>;

    /// Returns the first run that is left, or `None` if there is none. `O(1)`.
    ///
    /// ```
    /// use intervallum::proved::examples::*;
    ///
    /// fn main() -> Result<(), std::boxed::Box<dyn std::error::Error>> {
    ///     let alloc = Global;
    ///     let mut a = PagedSet::new(alloc);
    ///     assert!(a.insert(2)? && a.insert(5)?);
    ///     let mut left = a.iter();
    ///     assert!(left.next() == Some(Interval::new(2, 2)));
    ///     assert!(left.next() == Some(Interval::new(5, 5)));
    ///     Ok(())
    /// }
    /// ```
    fn next(&mut self) -> Option<Interval<B>> {
        if self.first.is_empty() {
            self.first = match self.between.split_first() {
                Some((page, rest)) => {
                    self.between = rest;
                    page.set().runs()
                }
                None => mem::replace(&mut self.last, &[]),
            };
        }
        take_first(&mut self.first)
    }
}

/// Proved, with these words of the trait:
///
/// It yields the last run that is left, or `None` if none is.
///
/// ```text
/// next_back_gives = { YieldsLast (λ left. left) }
/// ```
impl<'a, B: Width> DoubleEndedIterator for Runs<'a, B> {
    /// Returns the last run that is left, or `None` if there is none. `O(1)`.
    ///
    /// ```
    /// use intervallum::proved::examples::*;
    ///
    /// fn main() -> Result<(), std::boxed::Box<dyn std::error::Error>> {
    ///     let alloc = Global;
    ///     let mut a = PagedSet::new(alloc);
    ///     assert!(a.insert(2)? && a.insert(5)?);
    ///     let mut left = a.iter();
    ///     assert!(left.next_back() == Some(Interval::new(5, 5)));
    ///     assert!(left.next_back() == Some(Interval::new(2, 2)));
    ///     Ok(())
    /// }
    /// ```
    fn next_back(&mut self) -> Option<Interval<B>> {
        if self.last.is_empty() {
            self.last = match self.between.split_last() {
                Some((page, rest)) => {
                    self.between = rest;
                    page.set().runs()
                }
                None => mem::replace(&mut self.first, &[]),
            };
        }
        take_last(&mut self.last)
    }
}

impl<'a, B: Width> FusedIterator for Runs<'a, B> {}

/// The runs of a slice, to be read as those of a set are.
pub(super) fn runs_of<'a, B: Width>(runs: &'a [Interval<B>]) -> Runs<'a, B> {
    Runs {
        first: runs,
        between: &[],
        last: &[],
    }
}

/// The runs of pages that meet a window, which all pages but the first and the last do.
pub(super) fn runs_of_parts<'a, B: Width>(pages: &'a [Page<B>], window: &Interval<B>) -> Runs<'a, B> {
    let Some((page, rest)) = pages.split_first() else {
        return Runs {
            first: &[],
            between: pages,
            last: &[],
        };
    };
    let first = page.set().runs_within(window);
    let Some((page, between)) = rest.split_last() else {
        return Runs {
            first,
            between: rest,
            last: &[],
        };
    };
    Runs {
        first,
        between,
        last: page.set().runs_within(window),
    }
}

/// Takes the first run of a slice away, if it has one.
fn take_first<'a, B: Width>(part: &mut &'a [Interval<B>]) -> Option<Interval<B>> {
    let (run, rest) = part.split_first()?;
    *part = rest;
    Some(*run)
}

/// Takes the last run of a slice away, if it has one.
fn take_last<'a, B: Width>(part: &mut &'a [Interval<B>]) -> Option<Interval<B>> {
    let (run, rest) = part.split_last()?;
    *part = rest;
    Some(*run)
}

impl<B: Width> PagedSet<B> {
    /// Returns a double-ended iterator over the runs, in ascending order. `O(1)`. Does not
    /// allocate.
    ///
    /// ```
    /// use intervallum::proved::examples::*;
    ///
    /// fn main() -> Result<(), std::boxed::Box<dyn std::error::Error>> {
    ///     let alloc = Global;
    ///     let mut a = PagedSet::new(alloc);
    ///     assert!(a.insert(2)? && a.insert(5)?);
    ///     let mut runs = a.iter();
    ///     assert!(runs.next() == Some(Interval::new(2, 2)));
    ///     assert!(runs.next_back() == Some(Interval::new(5, 5)));
    ///     Ok(())
    /// }
    /// ```
    ///
    /// # Proved
    ///
    /// The iterator yields the runs in order; they are ascending, not empty, lie in the range, and neither overlap nor touch.
    ///
    /// ```text
    /// ensures rest { result ≡ self.now }
    /// ensures runs { IsRunListIn B.whole self.now }
    /// ensures filled { All (λ run. HasSome (IsBetween run)) self.now }
    /// ```
    ///
    /// Words: [`IsRunListIn`](crate::definitions#IsRunListIn), [`HasSome`](crate::definitions#HasSome), [`IsBetween`](crate::definitions#IsBetween).
    pub fn iter(&self) -> Runs<'_, B> {
        Runs {
            first: &[],
            between: self.pages.as_slice(),
            last: &[],
        }
    }
}
