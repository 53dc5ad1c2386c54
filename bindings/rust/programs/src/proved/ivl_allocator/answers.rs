// Written by bindings/rust/extract from crates/ivl_allocator/src/answers.rt.
//! The answers to `take` and `give`, over the set of the free numbers.

#[allow(unused_imports)]
use crate::rattle::prelude::*;
use crate::proved::ivl_allocator::faults::write_fault;
use crate::proved::ivl_allocator::requests::{Take, given_from, taking_from};
use crate::proved::intervallum::interval::Interval;
use crate::proved::intervallum::interval_set::IntervalSet;
use crate::proved::intervallum::ops::Range;
use crate::proved::ivl_paged::PagedSet;
use crate::rattle::std::alloc::{AllocError, Global};
use crate::rattle::std::io;
use crate::rattle::std::io::Write;

/// Returns the set of the numbers from `first` to `last`, which are all free. The caller must ensure that they are in
/// order, and `last` below `u64::MAX`. Fails only if allocation fails.
pub fn all_free(alloc: Global, first: u64, last: u64) -> Result<PagedSet<u64>, AllocError> {
    let all = IntervalSet::new(alloc, first, last)?;
    PagedSet::of_set(&all)
}

/// Answers `take`, given the words after it: takes from 1 to `most` consecutive free numbers, the lowest, or those at or
/// above a number from `first` to `last`, and writes them, or `none` if there are not so many. Only a run that is not the
/// lowest may need memory.
///
/// # Errors
///
/// Fails only if a write failed. If allocation fails, that is the answer, and no number is taken.
pub fn take<W: Write>(
    free: &mut PagedSet<u64>,
    first: u64,
    last: u64,
    most: u64,
    words: &str,
    writer: &mut W,
) -> io::Result<()> {
    match taking_from(words, first, last, most) {
        Ok(Take::Lowest(count)) => take_lowest(free, count, writer),
        Ok(Take::At(count, place)) => take_at(free, count, place, writer),
        Ok(Take::Above(count, place)) => take_above(free, count, place, writer),
        Err(fault) => write_fault(writer, &fault),
    }
}

fn take_lowest<W: Write>(free: &mut PagedSet<u64>, count: u64, writer: &mut W) -> io::Result<()> {
    match free.take_first_fit(count) {
        Some(taken) => write_run(writer, &taken),
        None => writer.write_all(b"none\n"),
    }
}

fn take_at<W: Write>(
    free: &mut PagedSet<u64>,
    count: u64,
    place: u64,
    writer: &mut W,
) -> io::Result<()> {
    let run = Interval::new(place, place + (count - 1));
    if free.includes(&run) {
        take_run(free, run, writer)
    } else {
        writer.write_all(b"none\n")
    }
}

fn take_above<W: Write>(
    free: &mut PagedSet<u64>,
    count: u64,
    place: u64,
    writer: &mut W,
) -> io::Result<()> {
    match free.first_fit_from(place + 1, count) {
        Some(run) => take_run(free, run, writer),
        None => writer.write_all(b"none\n"),
    }
}

// Takes a run of free numbers, and writes it.
fn take_run<W: Write>(
    free: &mut PagedSet<u64>,
    run: Interval<u64>,
    writer: &mut W,
) -> io::Result<()> {
    match free.remove_interval(run) {
        Ok(()) => write_run(writer, &run),
        Err(_) => writer.write_all(b"error: out of memory\n"),
    }
}

/// Answers `give`, given the words after it: gives numbers from `first` to `last` back, unless some of them are free. The
/// caller must ensure that `last` is below `u64::MAX`.
///
/// # Errors
///
/// Fails only if a write failed. If allocation fails, that is the answer, and no number is given back.
pub fn give<W: Write>(
    free: &mut PagedSet<u64>,
    first: u64,
    last: u64,
    words: &str,
    writer: &mut W,
) -> io::Result<()> {
    match given_from(words, first, last) {
        Ok(given) => give_run(free, given, writer),
        Err(fault) => write_fault(writer, &fault),
    }
}

// Gives numbers back, unless some of them are free.
fn give_run<W: Write>(
    free: &mut PagedSet<u64>,
    run: Interval<u64>,
    writer: &mut W,
) -> io::Result<()> {
    if !are_taken(free, &run) {
        return writer.write_all(b"some of them are free\n");
    }
    match free.insert_interval(run) {
        Ok(()) => writer.write_all(b"ok\n"),
        Err(_) => writer.write_all(b"error: out of memory\n"),
    }
}

/// Whether none of the numbers is free.
fn are_taken(free: &PagedSet<u64>, numbers: &Interval<u64>) -> bool {
    match free.next_from(numbers.lower_bound()) {
        Some(next) => numbers.upper_bound() < next,
        None => true,
    }
}

/// Writes a run as `[l..u]`. The caller must ensure that its bounds are in order.
pub fn write_run<W: Write>(writer: &mut W, run: &Interval<u64>) -> io::Result<()> {
    run.in_whole();
    writeln!(writer, "{run}")
}
