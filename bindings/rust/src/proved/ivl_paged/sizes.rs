// Written by bindings/rust/extract from crates/ivl_paged/src/sizes.rt.
//! How many members pages have together, by groups of pages: a sum reads a number for each group, and the pages of one.

#[allow(unused_imports)]
use crate::rattle::prelude::*;
use crate::proved::ivl_paged::page::Page;
use crate::proved::intervallum::width::Width;
use crate::rattle::std::alloc::AllocError;

/// How many pages a group has. The last one may have fewer.
const GROUP: usize = 64;

/// Makes room for a number of the group of page `place`, if the pages before it have theirs.
pub(crate) fn make_room(sizes: &mut Vec<u128>, place: usize) -> Result<(), AllocError> {
    if place / GROUP < sizes.len() {
        return Ok(());
    }
    sizes.push(0)?;
    Ok(())
}

/// Page `place`, which had `before` members, has `after`.
pub(crate) fn change(sizes: &mut Vec<u128>, place: usize, before: u128, after: u128) {
    let group = place / GROUP;
    sizes[group] = sizes[group].wrapping_add(after).wrapping_sub(before);
}

/// Reads the groups from that of page `place` on anew, before which no page has changed.
pub(crate) fn read_from<B: Width>(sizes: &mut Vec<u128>, pages: &[Page<B>], place: usize) {
    for group in place / GROUP..sizes.len() {
        let start = group.saturating_mul(GROUP).min(pages.len());
        let end = start.saturating_add(GROUP).min(pages.len());
        sizes[group] = total_of(&pages[start..end]);
    }
}

/// How many members the first `place` pages have together, less a multiple of 2 ^ 128.
pub(crate) fn total_to<B: Width>(sizes: &[u128], pages: &[Page<B>], place: usize) -> u128 {
    let groups = place / GROUP;
    let mut total: u128 = 0;
    for group in 0..groups {
        total = total.wrapping_add(sizes[group]);
    }
    total.wrapping_add(total_of(&pages[groups * GROUP..place]))
}

/// A place from page `from` on, so that the pages up to there have no more than `count` members, and how many of these
/// are left behind it. Passes whole groups while it can.
pub(crate) fn pass_groups<B: Width>(
    sizes: &[u128],
    pages: &[Page<B>],
    from: usize,
    count: u128,
) -> (usize, u128) {
    let base = total_to(sizes, pages, from);
    let mut group = from / GROUP;
    let mut reached = total_to(sizes, pages, group * GROUP);
    let mut place = from;
    let mut left = count;
    'groups: while group < sizes.len() {
        reached = reached.wrapping_add(sizes[group]);
        let Some(rest) = count.checked_sub(reached.wrapping_sub(base)) else {
            return (place, left);
        };
        group += 1;
        place = group.saturating_mul(GROUP).min(pages.len());
        left = rest;
    }
    (place, left)
}

/// How many members pages have together, less a multiple of 2 ^ 128.
fn total_of<B: Width>(pages: &[Page<B>]) -> u128 {
    let mut total: u128 = 0;
    for page in pages {
        total = total.wrapping_add(page.member_count());
    }
    total
}
