// Written by bindings/rust/extract from crates/ivl_ranges/src/reading.rt.
//! Ranges and lengths, as the words of a line give them.

#[allow(unused_imports)]
use crate::rattle::prelude::*;
use crate::proved::ivl_ranges::reply::Fault;
use crate::proved::intervallum::interval::Interval;
use crate::proved::intervallum::interval_set::{IntervalSet, ToIntervalSet};
use crate::proved::ivl_lines::{next_word, number_from, one_word};
use crate::rattle::std::alloc::{AllocError, Global};

/// Returns the set of the numbers of the ranges that the words are. `O(n log n)` for `n` words.
///
/// # Errors
///
/// - [`Fault::Ranges`] if there is no word, or one that is not a range.
/// - [`Fault::Memory`] if an allocation fails.
pub fn set_from(alloc: Global, words: &str) -> Result<IntervalSet<i64>, Fault> {
    if next_word(words).is_none() {
        return Err(Fault::Ranges);
    }
    match ranges_from(alloc, words)? {
        Some(ranges) => Ok(ranges.to_interval_set(alloc)?),
        None => Err(Fault::Ranges),
    }
}

/// The two ends of each range, or `None` if a word is not a range.
fn ranges_from(alloc: Global, words: &str) -> Result<Option<Vec<(i64, i64)>>, AllocError> {
    let mut ranges = Vec::new(alloc);
    let mut rest = words;
    'words: while let Some((word, after)) = next_word(rest) {
        let Some(range) = range_from(word) else {
            return Ok(None);
        };
        ranges.push(range)?;
        rest = after;
    }
    Ok(Some(ranges))
}

/// The two ends of a range, which stand around two dots.
fn range_from(word: &str) -> Option<(i64, i64)> {
    let (lower, rest) = word.split_once('.')?;
    let upper = rest.strip_prefix('.')?;
    let (lower, upper) = (number_from(lower)?, number_from(upper)?);
    if lower <= upper && Interval::in_range(lower, upper) {
        Some((lower, upper))
    } else {
        None
    }
}

/// Returns the length that the only word is, or `None` if it is not a number from 0 to 4294967295.
/// Does not allocate.
pub fn length_from(words: &str) -> Option<u32> {
    u32::try_from(number_from(one_word(words)?)?).ok()
}
