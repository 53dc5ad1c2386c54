// Written by bindings/rust/extract from crates/ivl_paged/src/gaps.rt.
//! The numbers of the range that are in no page, in pages.

#[allow(unused_imports)]
use crate::rattle::prelude::*;
use crate::proved::ivl_paged::page::Page;
use crate::proved::ivl_paged::page_list::PageList;
use crate::proved::ivl_paged::pages;
use crate::proved::intervallum::interval::Interval;
use crate::proved::intervallum::interval_set::IntervalSet;
use crate::proved::intervallum::ops::{Complement, Empty, IsEmpty, Range};
use crate::proved::intervallum::width::Width;
use crate::rattle::std::alloc::{AllocError, Global};

/// The numbers of the range that are in none of some pages.
pub(crate) fn gaps_of<B: Width>(
    alloc: Global,
    pages: &PageList<B>,
) -> Result<PageList<B>, AllocError> {
    let count = pages.len();
    if count == 0 {
        let whole = IntervalSet::whole(alloc)?;
        return pages::pages_of(alloc, whole.runs());
    }
    gaps_between(alloc, pages)
}

/// The numbers of the range that are in none of some pages, of which there is one at least. The gaps
/// behind the runs of each page are a page, and the first of these has what lies before the first run too.
fn gaps_between<B: Width>(alloc: Global, pages: &PageList<B>) -> Result<PageList<B>, AllocError> {
    let mut gaps = PageList::new(alloc);
    for i in 0..pages.len() {
        let part = gaps_beside(pages, i)?;
        push_some(&mut gaps, part)?;
    }
    Ok(gaps)
}

/// The gaps behind the runs of page `i`, and before them if it is the first.
fn gaps_beside<B: Width>(pages: &PageList<B>, i: usize) -> Result<IntervalSet<B>, AllocError> {
    let mut gaps = pages.page(i).set().complement()?;
    gaps.remove_interval(before(pages, i))?;
    gaps.remove_interval(after(pages, i))?;
    Ok(gaps)
}

/// The numbers up to the least one of page `i`, or none if it is the first.
fn before<B: Width>(pages: &PageList<B>, i: usize) -> Interval<B> {
    if i == 0 {
        return Interval::empty();
    }
    Interval::new(B::min_value(), pages.head(i))
}

/// The numbers from the least one of the page behind page `i` on, or none if that is the last.
fn after<B: Width>(pages: &PageList<B>, i: usize) -> Interval<B> {
    if pages.len() - 1 <= i {
        return Interval::empty();
    }
    Interval::new(pages.head(i + 1), B::max_value())
}

/// Puts the runs of a set behind those of pages, as a page if there are any.
fn push_some<B: Width>(pages: &mut PageList<B>, set: IntervalSet<B>) -> Result<(), AllocError> {
    if set.is_empty() {
        return Ok(());
    }
    pages.push(Page::of(set))
}
