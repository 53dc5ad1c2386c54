//! What the calls of handles are made of: how a pointer is tested, a number, and an answer told. No function here has a loop.
use super::solver::end_of;
use intervallum::proved::ivl_buffers::pair::{Pair, PairI64, PairU64};
use intervallum::proved::ivl_buffers::reading::{are_inside, set_of};
use intervallum::proved::ivl_search::search::{End, Limits};
use intervallum::proved::prelude::*;
use intervallum::proved::{AllocError, Global};
use intervallum::set::Piece;
use std::alloc::{Layout, alloc, dealloc};
use std::panic::{AssertUnwindSafe, catch_unwind};

pub type Set<B> = intervallum::proved::ivl_paged::PagedSet<B>;
pub type Map<B> = intervallum::proved::ivl_map::IntervalMap<B, u64>;

/// What a call tells: an answer, or a code.
pub type Told = Result<i64, i64>;

pub const OUT_OF_RANGE: i64 = -1;
pub const OUT_OF_MEMORY: i64 = -2;
pub const NULL: i64 = -6;
pub const FAULT: i64 = -7;

/// The answer or the code of a call. A panic, which the proved code has none of, is a code.
pub fn guarded(call: impl FnOnce() -> Told) -> i64 {
    match catch_unwind(AssertUnwindSafe(call)) {
        Ok(Ok(told) | Err(told)) => told,
        Err(_) => FAULT,
    }
}

pub fn out_of_memory(_: AllocError) -> i64 {
    OUT_OF_MEMORY
}

// ---- handles

/// # Safety
///
/// The pointer is null, or a handle that nothing edits meanwhile.
pub unsafe fn reads<'a, H>(it: *const H) -> Result<&'a H, i64> {
    unsafe { it.as_ref() }.ok_or(NULL)
}

/// # Safety
///
/// The pointer is null, or a handle that nothing else uses meanwhile.
pub unsafe fn edits<'a, H>(it: *mut H) -> Result<&'a mut H, i64> {
    unsafe { it.as_mut() }.ok_or(NULL)
}

/// A copy of a set that is both operands.
///
/// # Safety
///
/// As of [`reads`].
pub unsafe fn copied_if_same<B: Width>(it: *const Set<B>, other: *const Set<B>) -> Result<Option<Set<B>>, i64> {
    let is_same = it == other && !it.is_null();
    is_same.then(|| unsafe { reads(other) }?.try_clone().map_err(out_of_memory)).transpose()
}

/// The copy, or else the other operand.
///
/// # Safety
///
/// As of [`reads`].
pub unsafe fn other_than<B: Width>(copied: &Option<Set<B>>, other: *const Set<B>) -> Result<&Set<B>, i64> {
    copied.as_ref().map_or_else(|| unsafe { reads(other) }, Ok)
}

/// Ends a handle; a null pointer has none.
///
/// # Safety
///
/// The pointer is null, or a handle that is not used from here on.
pub unsafe fn free<H>(it: *mut H) {
    if !it.is_null() {
        drop(unsafe { Box::from_raw(it) });
    }
}

/// Makes something behind a handle. Its memory is asked for first, so that nothing is taken out of a set in vain.
///
/// # Safety
///
/// The place can be written.
pub unsafe fn made_at<H>(place: *mut *mut H, make: impl FnOnce() -> Result<H, i64>) -> Told {
    const { assert!(size_of::<H>() > 0) };
    let layout = Layout::new::<H>();
    let at = unsafe { alloc(layout) }.cast::<H>();
    if at.is_null() {
        return Err(OUT_OF_MEMORY);
    }
    match make() {
        Ok(made) => unsafe {
            at.write(made);
            place.write(at);
            Ok(0)
        },
        Err(code) => unsafe {
            dealloc(at.cast(), layout);
            Err(code)
        },
    }
}

/// Whether there is a place to write an answer to.
pub fn is_place<P>(place: *mut P) -> Result<(), i64> {
    if place.is_null() { Err(NULL) } else { Ok(()) }
}

// ---- what is given

pub fn member<B: Width>(v: B) -> Result<B, i64> {
    Interval::in_range(v, v).then_some(v).ok_or(OUT_OF_RANGE)
}

/// The interval between two bounds, which is empty if they are crossed.
pub fn run<B: Width>(lower: B, upper: B) -> Result<Interval<B>, i64> {
    Piece::interval(&(lower..=upper)).ok_or(OUT_OF_RANGE)
}

/// The part of an interval that is in the range.
pub fn window<B: Width>(lower: B, upper: B) -> Interval<B> {
    Piece::clamped(&(lower..=upper))
}

/// A count of numbers that are looked for: of none, none are found.
pub fn above_0(count: u64) -> Result<u64, i64> {
    if count > 0 { Ok(count) } else { Err(0) }
}

/// Whether a pointer with a count may be read: a null pointer has none.
pub fn is_list<P>(at: *const P, count: usize) -> Result<(), i64> {
    if at.is_null() && count > 0 { Err(NULL) } else { Ok(()) }
}

/// A list whose members are all in the range.
pub fn inside<R: Pair>(pairs: &[R]) -> Result<&[R], i64> {
    if are_inside(pairs) { Ok(pairs) } else { Err(OUT_OF_RANGE) }
}

/// The set of the members of such a list.
pub fn list_of_pairs<R: Pair>(pairs: &[R]) -> Result<IntervalSet<R::Bound>, AllocError> {
    set_of(Global, pairs)
}

/// The same in pages.
pub fn of_pairs<R: Pair>(pairs: &[R]) -> Result<Set<R::Bound>, AllocError> {
    list_of_pairs(pairs).and_then(Set::from_set)
}

/// How far a search goes, as C has it.
#[repr(C)]
pub struct SearchLimits {
    solutions: u64,
    nodes: u64,
}

/// The limits of a search: by themselves, any number of solutions in a million nodes.
///
/// # Safety
///
/// The pointer is null, or that of limits.
pub unsafe fn limits_at(limits: *const SearchLimits) -> Limits {
    let given = unsafe { limits.as_ref() };
    let solutions = given.map_or(u64::MAX, |it| it.solutions);
    Limits {
        solutions: usize::try_from(solutions).unwrap_or(usize::MAX),
        nodes: given.map_or(1_000_000, |it| it.nodes),
    }
}

// ---- what is told

pub fn yes(told: Result<bool, AllocError>) -> Told {
    told.map(i64::from).map_err(out_of_memory)
}

pub fn done(told: Result<(), AllocError>) -> Told {
    told.map(|()| 0).map_err(out_of_memory)
}

/// Does a change if it is one; whether it was.
pub fn changed(is_none: bool, change: impl FnOnce(()) -> Result<(), AllocError>) -> Result<bool, AllocError> {
    if is_none { Ok(false) } else { change(()).map(|()| true) }
}

/// # Safety
///
/// The place can be written.
pub unsafe fn found_at<R>(place: *mut R, found: Option<R>) -> Told {
    let Some(found) = found else { return Ok(0) };
    unsafe { place.write(found) };
    Ok(1)
}

/// # Safety
///
/// The place can be written.
pub unsafe fn size_at(place: *mut u64, size: u64) -> Told {
    unsafe { place.write(size) };
    Ok(0)
}

/// A count up to the end of a search, and why it ended.
///
/// # Safety
///
/// The place can be written.
pub unsafe fn counted_at(place: *mut u64, counted: Result<(usize, End), i64>) -> Told {
    let (count, end) = counted?;
    unsafe { place.write(count as u64) };
    Ok(end_of(end))
}

/// A pair of a run.
pub trait OfRun: Pair<Bound: Width<Output = u64>> {
    fn of_run(run: Interval<Self::Bound>) -> Self {
        Self::of(run.lower(), run.upper())
    }
}

impl OfRun for PairI64 {}
impl OfRun for PairU64 {}

#[repr(C)]
pub struct Entry<B> {
    lower: B,
    upper: B,
    value: u64,
}

impl<B: Width> Entry<B> {
    pub fn of((run, value): (Interval<B>, &u64)) -> Self {
        Entry { lower: run.lower(), upper: run.upper(), value: *value }
    }
}
