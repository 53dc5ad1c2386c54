// Written by bindings/calls from crates/ivl_c/src/signed.rt.
//! The exported functions: each makes slices of the caller's pointers, and the call of the function of its name in
//! `crates/ivl_c`.
#![allow(clippy::too_many_arguments)]
use super::{buffer, list};
use intervallum::proved::Global;
use intervallum::proved::ivl_buffers::comparisons::{Asking, ask, count};
use intervallum::proved::ivl_buffers::edits::{Editing, edit};
use intervallum::proved::ivl_buffers::lookup::{first_fit, next_from};
use intervallum::proved::ivl_buffers::products::products;
use intervallum::proved::ivl_buffers::rank::{nth, rank};
use intervallum::proved::ivl_buffers::pair::{PairI64, PairU64};
use intervallum::proved::ivl_buffers::set_calls::{OfOne, OfTwo, of_one, of_two};
use intervallum::proved::ivl_buffers::sums::{Adding, of_members};
use intervallum::proved::ivl_buffers::{beside, reading, sorted_lookup};

#[unsafe(no_mangle)]
unsafe extern "C" fn ivl_normalize_i64(a: *const PairI64, n: usize, out: *mut PairI64, room: usize) -> i64 {
    let (a, out) = unsafe { (list(a, n), buffer(out, room)) };
    of_one(Global, OfOne::Same, a, out)
}

#[unsafe(no_mangle)]
unsafe extern "C" fn ivl_complement_i64(a: *const PairI64, n: usize, out: *mut PairI64, room: usize) -> i64 {
    let (a, out) = unsafe { (list(a, n), buffer(out, room)) };
    of_one(Global, OfOne::Rest, a, out)
}

#[unsafe(no_mangle)]
unsafe extern "C" fn ivl_union_i64(a: *const PairI64, n: usize, b: *const PairI64, m: usize, out: *mut PairI64, room: usize) -> i64 {
    let (a, b, out) = unsafe { (list(a, n), list(b, m), buffer(out, room)) };
    of_two(Global, OfTwo::Either, a, b, out)
}

#[unsafe(no_mangle)]
unsafe extern "C" fn ivl_intersection_i64(a: *const PairI64, n: usize, b: *const PairI64, m: usize, out: *mut PairI64, room: usize) -> i64 {
    let (a, b, out) = unsafe { (list(a, n), list(b, m), buffer(out, room)) };
    of_two(Global, OfTwo::Both, a, b, out)
}

#[unsafe(no_mangle)]
unsafe extern "C" fn ivl_difference_i64(a: *const PairI64, n: usize, b: *const PairI64, m: usize, out: *mut PairI64, room: usize) -> i64 {
    let (a, b, out) = unsafe { (list(a, n), list(b, m), buffer(out, room)) };
    of_two(Global, OfTwo::FirstAlone, a, b, out)
}

#[unsafe(no_mangle)]
unsafe extern "C" fn ivl_symmetric_difference_i64(a: *const PairI64, n: usize, b: *const PairI64, m: usize, out: *mut PairI64, room: usize) -> i64 {
    let (a, b, out) = unsafe { (list(a, n), list(b, m), buffer(out, room)) };
    of_two(Global, OfTwo::OneAlone, a, b, out)
}

#[unsafe(no_mangle)]
unsafe extern "C" fn ivl_is_subset_i64(a: *const PairI64, n: usize, b: *const PairI64, m: usize) -> i64 {
    let (a, b) = unsafe { (list(a, n), list(b, m)) };
    ask(Global, Asking::Within, a, b)
}

#[unsafe(no_mangle)]
unsafe extern "C" fn ivl_overlap_i64(a: *const PairI64, n: usize, b: *const PairI64, m: usize) -> i64 {
    let (a, b) = unsafe { (list(a, n), list(b, m)) };
    ask(Global, Asking::Meets, a, b)
}

#[unsafe(no_mangle)]
unsafe extern "C" fn ivl_equal_i64(a: *const PairI64, n: usize, b: *const PairI64, m: usize) -> i64 {
    let (a, b) = unsafe { (list(a, n), list(b, m)) };
    ask(Global, Asking::Alike, a, b)
}

#[unsafe(no_mangle)]
unsafe extern "C" fn ivl_size_i64(a: *const PairI64, n: usize, size: *mut u64) -> i64 {
    let (a, size) = unsafe { (list(a, n), &mut *size) };
    count(Global, a, size)
}

#[unsafe(no_mangle)]
unsafe extern "C" fn ivl_contains_i64(a: *const PairI64, n: usize, v: i64) -> bool {
    let a = unsafe { list(a, n) };
    reading::contains(a, v)
}

#[unsafe(no_mangle)]
unsafe extern "C" fn ivl_contains_sorted_i64(a: *const PairI64, n: usize, v: i64) -> bool {
    let a = unsafe { list(a, n) };
    sorted_lookup::contains(a, v)
}

#[unsafe(no_mangle)]
unsafe extern "C" fn ivl_sums_within_i64(a: *const PairI64, n: usize, b: *const PairI64, m: usize, out: *mut PairI64, room: usize) -> i64 {
    let (a, b, out) = unsafe { (list(a, n), list(b, m), buffer(out, room)) };
    of_members(Global, Adding::Sum, a, b, out)
}

#[unsafe(no_mangle)]
unsafe extern "C" fn ivl_differences_within_i64(a: *const PairI64, n: usize, b: *const PairI64, m: usize, out: *mut PairI64, room: usize) -> i64 {
    let (a, b, out) = unsafe { (list(a, n), list(b, m), buffer(out, room)) };
    of_members(Global, Adding::Difference, a, b, out)
}

#[unsafe(no_mangle)]
unsafe extern "C" fn ivl_products_i64(a: *const PairI64, n: usize, b: *const PairI64, m: usize, out: *mut PairI64, room: usize) -> i64 {
    let (a, b, out) = unsafe { (list(a, n), list(b, m), buffer(out, room)) };
    products(Global, a, b, out)
}

#[unsafe(no_mangle)]
unsafe extern "C" fn ivl_next_from_i64(a: *const PairI64, n: usize, v: i64, found: *mut i64) -> bool {
    let (a, found) = unsafe { (list(a, n), &mut *found) };
    next_from(a, v, found)
}

#[unsafe(no_mangle)]
unsafe extern "C" fn ivl_next_from_sorted_i64(a: *const PairI64, n: usize, v: i64, found: *mut i64) -> bool {
    let (a, found) = unsafe { (list(a, n), &mut *found) };
    sorted_lookup::next_from(a, v, found)
}

#[unsafe(no_mangle)]
unsafe extern "C" fn ivl_previous_to_sorted_i64(a: *const PairI64, n: usize, v: i64, found: *mut i64) -> bool {
    let (a, found) = unsafe { (list(a, n), &mut *found) };
    beside::previous_to(a, v, found)
}

#[unsafe(no_mangle)]
unsafe extern "C" fn ivl_run_at_sorted_i64(a: *const PairI64, n: usize, v: i64, found: *mut PairI64) -> bool {
    let (a, found) = unsafe { (list(a, n), &mut *found) };
    beside::run_at(a, v, found)
}

#[unsafe(no_mangle)]
unsafe extern "C" fn ivl_first_fit_i64(a: *const PairI64, n: usize, count: u64, found: *mut PairI64) -> i64 {
    let (a, found) = unsafe { (list(a, n), &mut *found) };
    first_fit(Global, a, count, found)
}

#[unsafe(no_mangle)]
unsafe extern "C" fn ivl_rank_i64(a: *const PairI64, n: usize, v: i64, found: *mut u64) -> i64 {
    let (a, found) = unsafe { (list(a, n), &mut *found) };
    rank(Global, a, v, found)
}

#[unsafe(no_mangle)]
unsafe extern "C" fn ivl_nth_i64(a: *const PairI64, n: usize, i: u64, found: *mut i64) -> i64 {
    let (a, found) = unsafe { (list(a, n), &mut *found) };
    nth(Global, a, i, found)
}

#[unsafe(no_mangle)]
unsafe extern "C" fn ivl_insert_i64(runs: *mut PairI64, room: usize, n: usize, lower: i64, upper: i64) -> i64 {
    let runs = unsafe { buffer(runs, room) };
    edit(Global, Editing::Insert, runs, n, PairI64 { lower, upper })
}

#[unsafe(no_mangle)]
unsafe extern "C" fn ivl_remove_i64(runs: *mut PairI64, room: usize, n: usize, lower: i64, upper: i64) -> i64 {
    let runs = unsafe { buffer(runs, room) };
    edit(Global, Editing::Remove, runs, n, PairI64 { lower, upper })
}

#[unsafe(no_mangle)]
unsafe extern "C" fn ivl_normalize_u64(a: *const PairU64, n: usize, out: *mut PairU64, room: usize) -> i64 {
    let (a, out) = unsafe { (list(a, n), buffer(out, room)) };
    of_one(Global, OfOne::Same, a, out)
}

#[unsafe(no_mangle)]
unsafe extern "C" fn ivl_complement_u64(a: *const PairU64, n: usize, out: *mut PairU64, room: usize) -> i64 {
    let (a, out) = unsafe { (list(a, n), buffer(out, room)) };
    of_one(Global, OfOne::Rest, a, out)
}

#[unsafe(no_mangle)]
unsafe extern "C" fn ivl_union_u64(a: *const PairU64, n: usize, b: *const PairU64, m: usize, out: *mut PairU64, room: usize) -> i64 {
    let (a, b, out) = unsafe { (list(a, n), list(b, m), buffer(out, room)) };
    of_two(Global, OfTwo::Either, a, b, out)
}

#[unsafe(no_mangle)]
unsafe extern "C" fn ivl_intersection_u64(a: *const PairU64, n: usize, b: *const PairU64, m: usize, out: *mut PairU64, room: usize) -> i64 {
    let (a, b, out) = unsafe { (list(a, n), list(b, m), buffer(out, room)) };
    of_two(Global, OfTwo::Both, a, b, out)
}

#[unsafe(no_mangle)]
unsafe extern "C" fn ivl_difference_u64(a: *const PairU64, n: usize, b: *const PairU64, m: usize, out: *mut PairU64, room: usize) -> i64 {
    let (a, b, out) = unsafe { (list(a, n), list(b, m), buffer(out, room)) };
    of_two(Global, OfTwo::FirstAlone, a, b, out)
}

#[unsafe(no_mangle)]
unsafe extern "C" fn ivl_symmetric_difference_u64(a: *const PairU64, n: usize, b: *const PairU64, m: usize, out: *mut PairU64, room: usize) -> i64 {
    let (a, b, out) = unsafe { (list(a, n), list(b, m), buffer(out, room)) };
    of_two(Global, OfTwo::OneAlone, a, b, out)
}

#[unsafe(no_mangle)]
unsafe extern "C" fn ivl_is_subset_u64(a: *const PairU64, n: usize, b: *const PairU64, m: usize) -> i64 {
    let (a, b) = unsafe { (list(a, n), list(b, m)) };
    ask(Global, Asking::Within, a, b)
}

#[unsafe(no_mangle)]
unsafe extern "C" fn ivl_overlap_u64(a: *const PairU64, n: usize, b: *const PairU64, m: usize) -> i64 {
    let (a, b) = unsafe { (list(a, n), list(b, m)) };
    ask(Global, Asking::Meets, a, b)
}

#[unsafe(no_mangle)]
unsafe extern "C" fn ivl_equal_u64(a: *const PairU64, n: usize, b: *const PairU64, m: usize) -> i64 {
    let (a, b) = unsafe { (list(a, n), list(b, m)) };
    ask(Global, Asking::Alike, a, b)
}

#[unsafe(no_mangle)]
unsafe extern "C" fn ivl_size_u64(a: *const PairU64, n: usize, size: *mut u64) -> i64 {
    let (a, size) = unsafe { (list(a, n), &mut *size) };
    count(Global, a, size)
}

#[unsafe(no_mangle)]
unsafe extern "C" fn ivl_contains_u64(a: *const PairU64, n: usize, v: u64) -> bool {
    let a = unsafe { list(a, n) };
    reading::contains(a, v)
}

#[unsafe(no_mangle)]
unsafe extern "C" fn ivl_contains_sorted_u64(a: *const PairU64, n: usize, v: u64) -> bool {
    let a = unsafe { list(a, n) };
    sorted_lookup::contains(a, v)
}

#[unsafe(no_mangle)]
unsafe extern "C" fn ivl_sums_within_u64(a: *const PairU64, n: usize, b: *const PairU64, m: usize, out: *mut PairU64, room: usize) -> i64 {
    let (a, b, out) = unsafe { (list(a, n), list(b, m), buffer(out, room)) };
    of_members(Global, Adding::Sum, a, b, out)
}

#[unsafe(no_mangle)]
unsafe extern "C" fn ivl_differences_within_u64(a: *const PairU64, n: usize, b: *const PairU64, m: usize, out: *mut PairU64, room: usize) -> i64 {
    let (a, b, out) = unsafe { (list(a, n), list(b, m), buffer(out, room)) };
    of_members(Global, Adding::Difference, a, b, out)
}

#[unsafe(no_mangle)]
unsafe extern "C" fn ivl_products_u64(a: *const PairU64, n: usize, b: *const PairU64, m: usize, out: *mut PairU64, room: usize) -> i64 {
    let (a, b, out) = unsafe { (list(a, n), list(b, m), buffer(out, room)) };
    products(Global, a, b, out)
}

#[unsafe(no_mangle)]
unsafe extern "C" fn ivl_next_from_u64(a: *const PairU64, n: usize, v: u64, found: *mut u64) -> bool {
    let (a, found) = unsafe { (list(a, n), &mut *found) };
    next_from(a, v, found)
}

#[unsafe(no_mangle)]
unsafe extern "C" fn ivl_next_from_sorted_u64(a: *const PairU64, n: usize, v: u64, found: *mut u64) -> bool {
    let (a, found) = unsafe { (list(a, n), &mut *found) };
    sorted_lookup::next_from(a, v, found)
}

#[unsafe(no_mangle)]
unsafe extern "C" fn ivl_previous_to_sorted_u64(a: *const PairU64, n: usize, v: u64, found: *mut u64) -> bool {
    let (a, found) = unsafe { (list(a, n), &mut *found) };
    beside::previous_to(a, v, found)
}

#[unsafe(no_mangle)]
unsafe extern "C" fn ivl_run_at_sorted_u64(a: *const PairU64, n: usize, v: u64, found: *mut PairU64) -> bool {
    let (a, found) = unsafe { (list(a, n), &mut *found) };
    beside::run_at(a, v, found)
}

#[unsafe(no_mangle)]
unsafe extern "C" fn ivl_first_fit_u64(a: *const PairU64, n: usize, count: u64, found: *mut PairU64) -> i64 {
    let (a, found) = unsafe { (list(a, n), &mut *found) };
    first_fit(Global, a, count, found)
}

#[unsafe(no_mangle)]
unsafe extern "C" fn ivl_rank_u64(a: *const PairU64, n: usize, v: u64, found: *mut u64) -> i64 {
    let (a, found) = unsafe { (list(a, n), &mut *found) };
    rank(Global, a, v, found)
}

#[unsafe(no_mangle)]
unsafe extern "C" fn ivl_nth_u64(a: *const PairU64, n: usize, i: u64, found: *mut u64) -> i64 {
    let (a, found) = unsafe { (list(a, n), &mut *found) };
    nth(Global, a, i, found)
}

#[unsafe(no_mangle)]
unsafe extern "C" fn ivl_insert_u64(runs: *mut PairU64, room: usize, n: usize, lower: u64, upper: u64) -> i64 {
    let runs = unsafe { buffer(runs, room) };
    edit(Global, Editing::Insert, runs, n, PairU64 { lower, upper })
}

#[unsafe(no_mangle)]
unsafe extern "C" fn ivl_remove_u64(runs: *mut PairU64, room: usize, n: usize, lower: u64, upper: u64) -> i64 {
    let runs = unsafe { buffer(runs, room) };
    edit(Global, Editing::Remove, runs, n, PairU64 { lower, upper })
}
