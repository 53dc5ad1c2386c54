// Written by bindings/rust/extract from crates/ivl_store/src/store/words.rt.
//! Sums over sets whose members lie close together: bit `p` of a word stands for the number `p` above a base.

#[allow(unused_imports)]
use crate::rattle::prelude::*;
use crate::proved::intervallum::interval::Interval;
use crate::proved::intervallum::interval_set::IntervalSet;
use crate::proved::intervallum::ops::Range;
use crate::proved::intervallum::width::Width;
use crate::rattle::std::alloc::AllocError;

/// The words of the sets at x, y and z of a sum.
#[derive(Clone, Copy)]
pub(super) struct Words {
    pub x: u64,
    pub y: u64,
    pub z: u64,
}

/// The word whose bits from one place to another are set.
fn bits_between(low: u32, high: u32) -> u64 {
    (u64::MAX >> (63 - high)) & (u64::MAX << low)
}

/// The word of one bit.
fn bit(place: u32) -> u64 {
    1 << place
}

/// The word without one of its bits.
fn without_bit(word: u64, place: u32) -> u64 {
    word & !bit(place)
}

/// The words with what is supported by bit `place` of `x`, where `y` and `z` are the words of the other sets.
fn with_supported(kept: Words, place: u32, y: u64, z: u64) -> Words {
    let met = (z >> place) & y;
    let one = if met == 0 { 0 } else { 1 << place };
    Words {
        x: kept.x | one,
        y: kept.y | met,
        z: kept.z | (met << place),
    }
}

/// What is left of three sets of small numbers of which a sum holds.
pub(super) fn supported(x: u64, y: u64, z: u64) -> Words {
    let mut kept = Words { x: 0, y: 0, z: 0 };
    let mut rest = x;
    'places: while rest != 0 {
        let place = rest.trailing_zeros();
        kept = with_supported(kept, place, y, z);
        rest = without_bit(rest, place);
    }
    kept
}

/// How far a value stands above a base.
pub(super) fn above<B: Width>(value: B, base: i64) -> i128 {
    value.number() - base as i128
}

/// Whether a value stands below a base.
pub(super) fn is_below<B: Width>(value: B, base: i64) -> bool {
    value.number() < base as i128
}

/// Whether a value stands above the places of a word.
pub(super) fn is_past<B: Width>(value: B, base: i64) -> bool {
    value.number() > (base + 63) as i128
}

/// The place of a number that has one.
fn place_of(number: i128) -> u32 {
    number as u32
}

/// The first place from a number on.
fn first_place(number: i128) -> u32 {
    if number < 0 {
        return 0;
    }
    place_of(number)
}

/// The last place up to a number.
fn last_place(number: i128) -> u32 {
    if 63 < number {
        return 63;
    }
    place_of(number)
}

/// The word of the numbers of a run, from a base on.
fn word_of_run<B: Width>(run: Interval<B>, base: i64) -> u64 {
    let low = above(run.lower_bound(), base);
    let high = above(run.upper_bound(), base);
    if high < 0 || 63 < low {
        return 0;
    }
    bits_between(first_place(low), last_place(high))
}

/// The word of the numbers of a run, all of which have a place.
fn word_of_run_within<B: Width>(run: Interval<B>, base: i64) -> u64 {
    let low = place_of(above(run.lower_bound(), base));
    let high = place_of(above(run.upper_bound(), base));
    bits_between(low, high)
}

/// The word of a set, all of whose members have a place.
pub(super) fn word_within<B: Width>(runs: &[Interval<B>], base: i64) -> u64 {
    let mut word = 0;
    for run in runs {
        word |= word_of_run_within(*run, base);
    }
    word
}

/// The word of a set, of its members from a base on.
pub(super) fn word_of<B: Width>(runs: &[Interval<B>], base: i64) -> u64 {
    let mut word = 0;
    for run in runs {
        word |= word_of_run(*run, base);
    }
    word
}

/// The first and the last of some bits that are set, one after another, of which the first is the lowest, and no bit
/// follows the last.
fn first_bits(word: u64) -> (u32, u32) {
    if word == u64::MAX {
        return (0, 63);
    }
    let low = word.trailing_zeros();
    let count = (word >> low).trailing_ones();
    (low, low + count - 1)
}

/// The bits of a word above one of its bits.
fn bits_above(word: u64, place: u32) -> u64 {
    word & (!1 << place)
}

/// The set of the numbers of a word, above a base, in the memory of an empty set.
#[inline(always)]
pub(super) fn set_of_word<B: Width>(
    empty: IntervalSet<B>,
    word: u64,
    base: i64,
) -> Result<IntervalSet<B>, AllocError> {
    let mut set = empty;
    let mut rest = word;
    'runs: while rest != 0 {
        let (low, high) = first_bits(rest);
        set.push_run(run_of(base, low, high))?;
        rest = bits_above(rest, high);
    }
    set.in_whole();
    Ok(set)
}

/// The run from one place to another above a base.
fn run_of<B: Width>(base: i64, low: u32, high: u32) -> Interval<B> {
    Interval::new(value_of(base, low), value_of(base, high))
}

/// The value that stands so far above a base.
fn value_of<B: Width>(base: i64, place: u32) -> B {
    B::from_number((base + place as i64) as i128).unwrap()
}
