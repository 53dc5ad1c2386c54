// Written by bindings/rust/extract from crates/ivl_paged/src/longests.rt.
//! For each page a number that no run of it exceeds, which is the same for the pages of a group.

#[allow(unused_imports)]
use crate::rattle::prelude::*;
use crate::proved::ivl_paged::page::Page;
use crate::proved::intervallum::width::{SizeNumber, Width};
use crate::rattle::std::alloc::{AllocError, Global};

/// A group that gets so many pages is divided in two, unless there is no memory for it. With 8 in its place, the
/// tests divide groups at a few hundred runs.
const MOST_PAGES: usize = 128;

/// How many pages a group gets where pages are put behind the others.
const FIRST_PAGES: usize = MOST_PAGES / 2;

/// For each page a number that no run of it exceeds. Pages that stand in a row form a group, and have the same
/// number, so that a search for a long run passes most groups, and looks at the pages of few.
pub(crate) struct Longests<B: Width> {
    /// How many pages each group has.
    counts: Vec<usize>,
    /// The number that no run of the group exceeds.
    mosts: Vec<B::Output>,
}

impl<B: Width> Longests<B> {
    /// Those of no pages.
    pub(crate) fn new(alloc: Global) -> Self {
        Longests {
            counts: Vec::new(alloc),
            mosts: Vec::new(alloc),
        }
    }

    /// Takes out all pages.
    pub(crate) fn clear(&mut self) {
        self.counts.clear();
        self.mosts.clear();
    }

    /// Puts a page behind the others, which has no run longer than `most`.
    pub(crate) fn push(&mut self, most: B::Output) -> Result<(), AllocError> {
        let groups = self.counts.len();
        if 0 < groups && self.counts[groups - 1] < FIRST_PAGES {
            self.counts[groups - 1] += 1;
            self.mosts[groups - 1] = greater(self.mosts[groups - 1], most);
            return Ok(());
        }
        self.mosts.reserve(1)?;
        self.counts.push(1)?;
        self.mosts.push_reserved(most);
        Ok(())
    }

    /// Puts a page behind page `i`, which has no run longer than that page may have. Returns true where a group
    /// was divided.
    pub(crate) fn widen(&mut self, i: usize) -> bool {
        let (group, _) = find(self.counts.as_slice(), i);
        self.counts[group] += 1;
        // without memory the group grows beyond its measure
        MOST_PAGES <= self.counts[group] && divide(&mut self.counts, &mut self.mosts, group).is_ok()
    }

    /// Takes out the pages from `start` to before `end`.
    pub(crate) fn take_out(&mut self, start: usize, end: usize) {
        take_places(&mut self.counts, start, end);
        remove_empty(&mut self.counts, &mut self.mosts);
    }

    /// Lets page `i`, whose longest run had `before` numbers, have one of `after`.
    pub(crate) fn raise(&mut self, i: usize, before: B::Output, after: B::Output) {
        if before >= after {
            return;
        }
        let (group, _) = find(self.counts.as_slice(), i);
        self.mosts[group] = greater(self.mosts[group], after);
    }

    /// Reads the group of page `i` anew where its longest run may have been in that page: this had `before` numbers,
    /// and has `after`.
    pub(crate) fn lower(&mut self, i: usize, before: B::Output, after: B::Output, pages: &[Page<B>]) {
        if after >= before {
            return;
        }
        let (group, _) = find(self.counts.as_slice(), i);
        if before >= self.mosts[group] {
            self.read_anew(i, pages);
        }
    }

    /// Reads the groups of page `i` and beside it anew, if a group was divided there.
    pub(crate) fn settle(&mut self, i: usize, is_divided: bool, pages: &[Page<B>]) {
        if !is_divided {
            return;
        }
        self.read_anew(i, pages);
        self.read_anew(i.saturating_sub(FIRST_PAGES), pages);
        self.read_anew(i.saturating_add(FIRST_PAGES), pages);
    }

    /// Reads the groups of page `i` and of the page before it anew, beside which pages were taken out.
    pub(crate) fn read_beside(&mut self, i: usize, pages: &[Page<B>]) {
        self.read_anew(i, pages);
        if i == 0 {
            return;
        }
        self.read_anew(i - 1, pages);
    }

    /// Makes the number of the group of page `i`, if there is one, what its longest run has.
    fn read_anew(&mut self, i: usize, pages: &[Page<B>]) {
        if pages.len() <= i {
            return;
        }
        let (group, left) = find(self.counts.as_slice(), i);
        let behind = &pages[i - left..];
        self.mosts[group] = longest_of(&behind[..self.counts[group]]);
    }

    /// The next pages of one group, from page `from` on, of which one may have a run of `count` numbers. There are
    /// `pages` pages.
    pub(crate) fn next_with(
        &self,
        from: usize,
        count: B::Output,
        pages: usize,
    ) -> Option<(usize, usize)> {
        next_group(
            self.counts.as_slice(),
            self.mosts.as_slice(),
            from,
            count,
            pages,
        )
    }
}

/// The next places of one group, from place `from` on, whose number is `count` or above, of `places` in all.
fn next_group<N: SizeNumber>(
    counts: &[usize],
    mosts: &[N],
    from: usize,
    count: N,
    places: usize,
) -> Option<(usize, usize)> {
    if places <= from {
        return None;
    }
    let mut start = 0;
    for group in 0..counts.len() {
        let end = start + counts[group];
        if may_have(from, end, mosts[group], count) {
            return Some((start.max(from), end));
        }
        start = end;
    }
    None
}

/// Whether places that end after place `from` have a number of `count` or above.
fn may_have<N: SizeNumber>(from: usize, end: usize, most: N, count: N) -> bool {
    from < end && most >= count
}

/// The group of place `i`, and how many places of it are before.
fn find(counts: &[usize], i: usize) -> (usize, usize) {
    let mut group = 0;
    let mut left = i;
    'groups: while counts[group] <= left {
        left -= counts[group];
        group += 1;
    }
    (group, left)
}

/// The greater of two numbers.
fn greater<N: SizeNumber>(x: N, y: N) -> N {
    if x >= y { x } else { y }
}

/// Divides a group in two, whose number stays the same.
fn divide<N: SizeNumber>(
    counts: &mut Vec<usize>,
    mosts: &mut Vec<N>,
    group: usize,
) -> Result<(), AllocError> {
    let count = counts[group];
    let most = mosts[group];
    mosts.reserve(1)?;
    counts.insert(group + 1, count - count / 2)?;
    mosts.insert(group + 1, most).unwrap();
    counts[group] = count / 2;
    Ok(())
}

/// Takes the places from `start` to before `end` out of groups.
fn take_places(counts: &mut Vec<usize>, start: usize, end: usize) {
    let mut low = start;
    let mut high = end;
    for group in 0..counts.len() {
        let count = counts[group];
        counts[group] = low.min(count) + count.saturating_sub(high);
        low = low.saturating_sub(count);
        high = high.saturating_sub(count);
    }
}

/// Takes out the groups that have no pages.
fn remove_empty<N: SizeNumber>(counts: &mut Vec<usize>, mosts: &mut Vec<N>) {
    let mut group = 0;
    'groups: while group < counts.len() {
        if counts[group] == 0 {
            counts.remove(group);
            mosts.remove(group);
        } else {
            group += 1;
        }
    }
}

/// How many members the longest run of some pages has: no run exceeds it. 0 if there is no page.
pub(crate) fn longest_of<B: Width>(pages: &[Page<B>]) -> B::Output {
    let mut most = <B::Output as SizeNumber>::zero();
    for page in pages {
        most = greater(most, page.longest());
    }
    most
}
