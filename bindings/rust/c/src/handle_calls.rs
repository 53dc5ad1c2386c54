// Written by bindings/calls from bindings/handles.txt.
//! The calls of handles: each tests what it is given, and makes the call of the proved set, map or search.
use super::handles::*;
use super::solver::{Solutions, Solver, Task, best};
use super::{buffer, list};
use intervallum::proved::Global;
use intervallum::proved::ivl_buffers::pair::{PairI64, PairU64};
use intervallum::proved::ivl_buffers::writing::tell;
use intervallum::proved::prelude::*;

/// The calls of one type of bounds, whose names end with it.
macro_rules! calls {
    ($module:ident, $bound:ty, $pair:ty, $bounds:literal) => {
    mod $module {
        use super::*;

        type B = $bound;
        type R = $pair;

        #[unsafe(export_name = concat!("ivl_set_free_", $bounds))]
        unsafe extern "C" fn set_free(it: *mut Set<B>) {
            unsafe { free(it) }
        }

        #[unsafe(export_name = concat!("ivl_map_free_", $bounds))]
        unsafe extern "C" fn map_free(it: *mut Map<B>) {
            unsafe { free(it) }
        }

        #[unsafe(export_name = concat!("ivl_solver_free_", $bounds))]
        unsafe extern "C" fn solver_free(it: *mut Solver<B>) {
            unsafe { free(it) }
        }

        #[unsafe(export_name = concat!("ivl_solutions_free_", $bounds))]
        unsafe extern "C" fn solutions_free(it: *mut Solutions<B>) {
            unsafe { free(it) }
        }

        #[unsafe(export_name = concat!("ivl_set_new_", $bounds))]
        unsafe extern "C" fn set_new(made: *mut *mut Set<B>) -> i64 {
            guarded(|| {
                is_place(made)?;
                unsafe { made_at(made, || (Ok(Set::new(Global))).map_err(out_of_memory)) }
            })
        }

        #[unsafe(export_name = concat!("ivl_set_of_", $bounds))]
        unsafe extern "C" fn set_of(pairs: *const R, n: usize, made: *mut *mut Set<B>) -> i64 {
            guarded(|| {
                is_list(pairs, n)?; let pairs = inside(unsafe { list(pairs, n) })?;
                is_place(made)?;
                unsafe { made_at(made, || (of_pairs(pairs)).map_err(out_of_memory)) }
            })
        }

        #[unsafe(export_name = concat!("ivl_set_clone_", $bounds))]
        unsafe extern "C" fn set_clone(it: *const Set<B>, made: *mut *mut Set<B>) -> i64 {
            guarded(|| {
                let it = unsafe { reads(it) }?;
                is_place(made)?;
                unsafe { made_at(made, || (it.try_clone()).map_err(out_of_memory)) }
            })
        }

        #[unsafe(export_name = concat!("ivl_set_insert_", $bounds))]
        unsafe extern "C" fn set_insert(it: *mut Set<B>, v: B) -> i64 {
            guarded(|| {
                let it = unsafe { edits(it) }?;
                let v = member(v)?;
                yes(it.insert(v))
            })
        }

        #[unsafe(export_name = concat!("ivl_set_remove_", $bounds))]
        unsafe extern "C" fn set_remove(it: *mut Set<B>, v: B) -> i64 {
            guarded(|| {
                let it = unsafe { edits(it) }?;
                yes(it.remove(v))
            })
        }

        #[unsafe(export_name = concat!("ivl_set_insert_run_", $bounds))]
        unsafe extern "C" fn set_insert_run(it: *mut Set<B>, lower: B, upper: B) -> i64 {
            guarded(|| {
                let it = unsafe { edits(it) }?;
                let run = run(lower, upper)?;
                yes(changed(it.includes(&run), |_| it.insert_interval(run)))
            })
        }

        #[unsafe(export_name = concat!("ivl_set_remove_run_", $bounds))]
        unsafe extern "C" fn set_remove_run(it: *mut Set<B>, lower: B, upper: B) -> i64 {
            guarded(|| {
                let it = unsafe { edits(it) }?;
                let window = window(lower, upper);
                yes(changed(!it.overlap(&window), |_| it.remove_interval(window)))
            })
        }

        #[unsafe(export_name = concat!("ivl_set_clear_", $bounds))]
        unsafe extern "C" fn set_clear(it: *mut Set<B>) -> i64 {
            guarded(|| {
                let it = unsafe { edits(it) }?;
                done({ it.clear(); Ok(()) })
            })
        }

        #[unsafe(export_name = concat!("ivl_set_pop_first_", $bounds))]
        unsafe extern "C" fn set_pop_first(it: *mut Set<B>, found: *mut B) -> i64 {
            guarded(|| {
                let it = unsafe { edits(it) }?;
                is_place(found)?;
                unsafe { found_at(found, it.pop_first()) }
            })
        }

        #[unsafe(export_name = concat!("ivl_set_pop_last_", $bounds))]
        unsafe extern "C" fn set_pop_last(it: *mut Set<B>, found: *mut B) -> i64 {
            guarded(|| {
                let it = unsafe { edits(it) }?;
                is_place(found)?;
                unsafe { found_at(found, it.pop_last()) }
            })
        }

        #[unsafe(export_name = concat!("ivl_set_take_first_fit_", $bounds))]
        unsafe extern "C" fn set_take_first_fit(it: *mut Set<B>, count: u64, found: *mut R) -> i64 {
            guarded(|| {
                let it = unsafe { edits(it) }?;
                let count = above_0(count)?;
                is_place(found)?;
                unsafe { found_at(found, (it.take_first_fit(count)).map(R::of_run)) }
            })
        }

        #[unsafe(export_name = concat!("ivl_set_contains_", $bounds))]
        unsafe extern "C" fn set_contains(it: *const Set<B>, v: B) -> i64 {
            guarded(|| {
                let it = unsafe { reads(it) }?;
                yes(Ok(it.contains(&v)))
            })
        }

        #[unsafe(export_name = concat!("ivl_set_includes_", $bounds))]
        unsafe extern "C" fn set_includes(it: *const Set<B>, lower: B, upper: B) -> i64 {
            guarded(|| {
                let it = unsafe { reads(it) }?;
                let run = run(lower, upper)?;
                yes(Ok(it.includes(&run)))
            })
        }

        #[unsafe(export_name = concat!("ivl_set_overlaps_", $bounds))]
        unsafe extern "C" fn set_overlaps(it: *const Set<B>, lower: B, upper: B) -> i64 {
            guarded(|| {
                let it = unsafe { reads(it) }?;
                let window = window(lower, upper);
                yes(Ok(it.overlap(&window)))
            })
        }

        #[unsafe(export_name = concat!("ivl_set_is_empty_", $bounds))]
        unsafe extern "C" fn set_is_empty(it: *const Set<B>) -> i64 {
            guarded(|| {
                let it = unsafe { reads(it) }?;
                yes(Ok(it.is_empty()))
            })
        }

        #[unsafe(export_name = concat!("ivl_set_run_count_", $bounds))]
        unsafe extern "C" fn set_run_count(it: *const Set<B>, size: *mut u64) -> i64 {
            guarded(|| {
                let it = unsafe { reads(it) }?;
                is_place(size)?;
                unsafe { size_at(size, it.interval_count() as u64) }
            })
        }

        #[unsafe(export_name = concat!("ivl_set_size_", $bounds))]
        unsafe extern "C" fn set_size(it: *const Set<B>, size: *mut u64) -> i64 {
            guarded(|| {
                let it = unsafe { reads(it) }?;
                is_place(size)?;
                unsafe { size_at(size, it.size()) }
            })
        }

        #[unsafe(export_name = concat!("ivl_set_size_within_", $bounds))]
        unsafe extern "C" fn set_size_within(it: *const Set<B>, lower: B, upper: B, size: *mut u64) -> i64 {
            guarded(|| {
                let it = unsafe { reads(it) }?;
                let window = window(lower, upper);
                is_place(size)?;
                unsafe { size_at(size, it.size_within(&window)) }
            })
        }

        #[unsafe(export_name = concat!("ivl_set_rank_", $bounds))]
        unsafe extern "C" fn set_rank(it: *const Set<B>, v: B, size: *mut u64) -> i64 {
            guarded(|| {
                let it = unsafe { reads(it) }?;
                is_place(size)?;
                unsafe { size_at(size, it.rank(v)) }
            })
        }

        #[unsafe(export_name = concat!("ivl_set_first_", $bounds))]
        unsafe extern "C" fn set_first(it: *const Set<B>, found: *mut B) -> i64 {
            guarded(|| {
                let it = unsafe { reads(it) }?;
                is_place(found)?;
                unsafe { found_at(found, it.first()) }
            })
        }

        #[unsafe(export_name = concat!("ivl_set_last_", $bounds))]
        unsafe extern "C" fn set_last(it: *const Set<B>, found: *mut B) -> i64 {
            guarded(|| {
                let it = unsafe { reads(it) }?;
                is_place(found)?;
                unsafe { found_at(found, it.last()) }
            })
        }

        #[unsafe(export_name = concat!("ivl_set_nth_", $bounds))]
        unsafe extern "C" fn set_nth(it: *const Set<B>, index: u64, found: *mut B) -> i64 {
            guarded(|| {
                let it = unsafe { reads(it) }?;
                is_place(found)?;
                unsafe { found_at(found, it.nth(index)) }
            })
        }

        #[unsafe(export_name = concat!("ivl_set_next_from_", $bounds))]
        unsafe extern "C" fn set_next_from(it: *const Set<B>, v: B, found: *mut B) -> i64 {
            guarded(|| {
                let it = unsafe { reads(it) }?;
                is_place(found)?;
                unsafe { found_at(found, it.next_from(v)) }
            })
        }

        #[unsafe(export_name = concat!("ivl_set_previous_to_", $bounds))]
        unsafe extern "C" fn set_previous_to(it: *const Set<B>, v: B, found: *mut B) -> i64 {
            guarded(|| {
                let it = unsafe { reads(it) }?;
                is_place(found)?;
                unsafe { found_at(found, it.previous_to(v)) }
            })
        }

        #[unsafe(export_name = concat!("ivl_set_run_at_", $bounds))]
        unsafe extern "C" fn set_run_at(it: *const Set<B>, v: B, found: *mut R) -> i64 {
            guarded(|| {
                let it = unsafe { reads(it) }?;
                is_place(found)?;
                unsafe { found_at(found, (it.run_at(v)).map(R::of_run)) }
            })
        }

        #[unsafe(export_name = concat!("ivl_set_run_from_", $bounds))]
        unsafe extern "C" fn set_run_from(it: *const Set<B>, v: B, found: *mut R) -> i64 {
            guarded(|| {
                let it = unsafe { reads(it) }?;
                is_place(found)?;
                unsafe { found_at(found, (it.next_from(v).and_then(|member| it.run_at(member))).map(R::of_run)) }
            })
        }

        #[unsafe(export_name = concat!("ivl_set_first_fit_", $bounds))]
        unsafe extern "C" fn set_first_fit(it: *const Set<B>, count: u64, found: *mut R) -> i64 {
            guarded(|| {
                let it = unsafe { reads(it) }?;
                let count = above_0(count)?;
                is_place(found)?;
                unsafe { found_at(found, (it.first_fit(count)).map(R::of_run)) }
            })
        }

        #[unsafe(export_name = concat!("ivl_set_first_fit_from_", $bounds))]
        unsafe extern "C" fn set_first_fit_from(it: *const Set<B>, v: B, count: u64, found: *mut R) -> i64 {
            guarded(|| {
                let it = unsafe { reads(it) }?;
                let count = above_0(count)?;
                is_place(found)?;
                unsafe { found_at(found, (it.first_fit_from(v, count)).map(R::of_run)) }
            })
        }

        #[unsafe(export_name = concat!("ivl_set_best_fit_", $bounds))]
        unsafe extern "C" fn set_best_fit(it: *const Set<B>, count: u64, found: *mut R) -> i64 {
            guarded(|| {
                let it = unsafe { reads(it) }?;
                let count = above_0(count)?;
                is_place(found)?;
                unsafe { found_at(found, (it.best_fit(count)).map(R::of_run)) }
            })
        }

        #[unsafe(export_name = concat!("ivl_set_longest_run_", $bounds))]
        unsafe extern "C" fn set_longest_run(it: *const Set<B>, found: *mut R) -> i64 {
            guarded(|| {
                let it = unsafe { reads(it) }?;
                is_place(found)?;
                unsafe { found_at(found, (it.longest_run()).map(R::of_run)) }
            })
        }

        #[unsafe(export_name = concat!("ivl_set_is_subset_", $bounds))]
        unsafe extern "C" fn set_is_subset(it: *const Set<B>, other: *const Set<B>) -> i64 {
            guarded(|| {
                let it = unsafe { reads(it) }?;
                let other = unsafe { reads(other) }?;
                yes(Ok(it.is_subset(other)))
            })
        }

        #[unsafe(export_name = concat!("ivl_set_overlap_", $bounds))]
        unsafe extern "C" fn set_overlap(it: *const Set<B>, other: *const Set<B>) -> i64 {
            guarded(|| {
                let it = unsafe { reads(it) }?;
                let other = unsafe { reads(other) }?;
                yes(Ok(it.overlap(other)))
            })
        }

        #[unsafe(export_name = concat!("ivl_set_equal_", $bounds))]
        unsafe extern "C" fn set_equal(it: *const Set<B>, other: *const Set<B>) -> i64 {
            guarded(|| {
                let it = unsafe { reads(it) }?;
                let other = unsafe { reads(other) }?;
                yes(Ok(*it == *other))
            })
        }

        #[unsafe(export_name = concat!("ivl_set_union_", $bounds))]
        unsafe extern "C" fn set_union(it: *const Set<B>, other: *const Set<B>, made: *mut *mut Set<B>) -> i64 {
            guarded(|| {
                let it = unsafe { reads(it) }?;
                let other = unsafe { reads(other) }?;
                is_place(made)?;
                unsafe { made_at(made, || (it.union(other)).map_err(out_of_memory)) }
            })
        }

        #[unsafe(export_name = concat!("ivl_set_intersection_", $bounds))]
        unsafe extern "C" fn set_intersection(it: *const Set<B>, other: *const Set<B>, made: *mut *mut Set<B>) -> i64 {
            guarded(|| {
                let it = unsafe { reads(it) }?;
                let other = unsafe { reads(other) }?;
                is_place(made)?;
                unsafe { made_at(made, || (it.intersection(other)).map_err(out_of_memory)) }
            })
        }

        #[unsafe(export_name = concat!("ivl_set_difference_", $bounds))]
        unsafe extern "C" fn set_difference(it: *const Set<B>, other: *const Set<B>, made: *mut *mut Set<B>) -> i64 {
            guarded(|| {
                let it = unsafe { reads(it) }?;
                let other = unsafe { reads(other) }?;
                is_place(made)?;
                unsafe { made_at(made, || (it.difference(other)).map_err(out_of_memory)) }
            })
        }

        #[unsafe(export_name = concat!("ivl_set_symmetric_difference_", $bounds))]
        unsafe extern "C" fn set_symmetric_difference(it: *const Set<B>, other: *const Set<B>, made: *mut *mut Set<B>) -> i64 {
            guarded(|| {
                let it = unsafe { reads(it) }?;
                let other = unsafe { reads(other) }?;
                is_place(made)?;
                unsafe { made_at(made, || (it.symmetric_difference(other)).map_err(out_of_memory)) }
            })
        }

        #[unsafe(export_name = concat!("ivl_set_complement_", $bounds))]
        unsafe extern "C" fn set_complement(it: *const Set<B>, made: *mut *mut Set<B>) -> i64 {
            guarded(|| {
                let it = unsafe { reads(it) }?;
                is_place(made)?;
                unsafe { made_at(made, || (it.complement()).map_err(out_of_memory)) }
            })
        }

        #[unsafe(export_name = concat!("ivl_set_gaps_within_", $bounds))]
        unsafe extern "C" fn set_gaps_within(it: *const Set<B>, lower: B, upper: B, made: *mut *mut Set<B>) -> i64 {
            guarded(|| {
                let it = unsafe { reads(it) }?;
                let window = window(lower, upper);
                is_place(made)?;
                unsafe { made_at(made, || (it.gaps_within(&window).and_then(Set::from_set)).map_err(out_of_memory)) }
            })
        }

        #[unsafe(export_name = concat!("ivl_set_split_off_", $bounds))]
        unsafe extern "C" fn set_split_off(it: *mut Set<B>, v: B, made: *mut *mut Set<B>) -> i64 {
            guarded(|| {
                let it = unsafe { edits(it) }?;
                is_place(made)?;
                unsafe { made_at(made, || (it.split_off(v)).map_err(out_of_memory)) }
            })
        }

        #[unsafe(export_name = concat!("ivl_set_unite_", $bounds))]
        unsafe extern "C" fn set_unite(it: *mut Set<B>, other: *const Set<B>) -> i64 {
            guarded(|| {
                let copied = unsafe { copied_if_same(it, other) }?;
                let it = unsafe { edits(it) }?;
                let other = unsafe { other_than(&copied, other) }?;
                done(it.union_with(other))
            })
        }

        #[unsafe(export_name = concat!("ivl_set_intersect_", $bounds))]
        unsafe extern "C" fn set_intersect(it: *mut Set<B>, other: *const Set<B>) -> i64 {
            guarded(|| {
                let copied = unsafe { copied_if_same(it, other) }?;
                let it = unsafe { edits(it) }?;
                let other = unsafe { other_than(&copied, other) }?;
                done(it.intersect_with(other))
            })
        }

        #[unsafe(export_name = concat!("ivl_set_subtract_", $bounds))]
        unsafe extern "C" fn set_subtract(it: *mut Set<B>, other: *const Set<B>) -> i64 {
            guarded(|| {
                let copied = unsafe { copied_if_same(it, other) }?;
                let it = unsafe { edits(it) }?;
                let other = unsafe { other_than(&copied, other) }?;
                done(it.difference_with(other))
            })
        }

        #[unsafe(export_name = concat!("ivl_set_runs_", $bounds))]
        unsafe extern "C" fn set_runs(it: *const Set<B>, out: *mut R, room: usize) -> i64 {
            guarded(|| {
                let it = unsafe { reads(it) }?;
                is_list(out, room)?; let out = unsafe { buffer(out, room) };
                Ok(tell(it.to_set(), out))
            })
        }

        #[unsafe(export_name = concat!("ivl_map_new_", $bounds))]
        unsafe extern "C" fn map_new(made: *mut *mut Map<B>) -> i64 {
            guarded(|| {
                is_place(made)?;
                unsafe { made_at(made, || (Ok(Map::empty(Global))).map_err(out_of_memory)) }
            })
        }

        #[unsafe(export_name = concat!("ivl_map_clone_", $bounds))]
        unsafe extern "C" fn map_clone(it: *const Map<B>, made: *mut *mut Map<B>) -> i64 {
            guarded(|| {
                let it = unsafe { reads(it) }?;
                is_place(made)?;
                unsafe { made_at(made, || (it.try_clone()).map_err(out_of_memory)) }
            })
        }

        #[unsafe(export_name = concat!("ivl_map_insert_", $bounds))]
        unsafe extern "C" fn map_insert(it: *mut Map<B>, lower: B, upper: B, value: u64) -> i64 {
            guarded(|| {
                let it = unsafe { edits(it) }?;
                let run = run(lower, upper)?;
                done(it.insert(run, value))
            })
        }

        #[unsafe(export_name = concat!("ivl_map_insert_if_free_", $bounds))]
        unsafe extern "C" fn map_insert_if_free(it: *mut Map<B>, lower: B, upper: B, value: u64) -> i64 {
            guarded(|| {
                let it = unsafe { edits(it) }?;
                let run = run(lower, upper)?;
                yes(it.insert_if_free(run, value).map(|met| met.is_none()))
            })
        }

        #[unsafe(export_name = concat!("ivl_map_remove_", $bounds))]
        unsafe extern "C" fn map_remove(it: *mut Map<B>, lower: B, upper: B) -> i64 {
            guarded(|| {
                let it = unsafe { edits(it) }?;
                let window = window(lower, upper);
                done(it.remove(window))
            })
        }

        #[unsafe(export_name = concat!("ivl_map_clear_", $bounds))]
        unsafe extern "C" fn map_clear(it: *mut Map<B>) -> i64 {
            guarded(|| {
                let it = unsafe { edits(it) }?;
                done({ it.clear(); Ok(()) })
            })
        }

        #[unsafe(export_name = concat!("ivl_map_is_empty_", $bounds))]
        unsafe extern "C" fn map_is_empty(it: *const Map<B>) -> i64 {
            guarded(|| {
                let it = unsafe { reads(it) }?;
                yes(Ok(it.is_empty()))
            })
        }

        #[unsafe(export_name = concat!("ivl_map_contains_", $bounds))]
        unsafe extern "C" fn map_contains(it: *const Map<B>, v: B) -> i64 {
            guarded(|| {
                let it = unsafe { reads(it) }?;
                yes(Ok(it.contains(&v)))
            })
        }

        #[unsafe(export_name = concat!("ivl_map_get_", $bounds))]
        unsafe extern "C" fn map_get(it: *const Map<B>, v: B, found: *mut u64) -> i64 {
            guarded(|| {
                let it = unsafe { reads(it) }?;
                is_place(found)?;
                unsafe { found_at(found, it.get(&v).copied()) }
            })
        }

        #[unsafe(export_name = concat!("ivl_map_entry_count_", $bounds))]
        unsafe extern "C" fn map_entry_count(it: *const Map<B>, size: *mut u64) -> i64 {
            guarded(|| {
                let it = unsafe { reads(it) }?;
                is_place(size)?;
                unsafe { size_at(size, it.interval_count() as u64) }
            })
        }

        #[unsafe(export_name = concat!("ivl_map_size_", $bounds))]
        unsafe extern "C" fn map_size(it: *const Map<B>, size: *mut u64) -> i64 {
            guarded(|| {
                let it = unsafe { reads(it) }?;
                is_place(size)?;
                unsafe { size_at(size, it.size()) }
            })
        }

        #[unsafe(export_name = concat!("ivl_map_equal_", $bounds))]
        unsafe extern "C" fn map_equal(it: *const Map<B>, other: *const Map<B>) -> i64 {
            guarded(|| {
                let it = unsafe { reads(it) }?;
                let other = unsafe { reads(other) }?;
                yes(Ok(*it == *other))
            })
        }

        #[unsafe(export_name = concat!("ivl_map_first_", $bounds))]
        unsafe extern "C" fn map_first(it: *const Map<B>, found: *mut Entry<B>) -> i64 {
            guarded(|| {
                let it = unsafe { reads(it) }?;
                is_place(found)?;
                unsafe { found_at(found, (it.first()).map(Entry::of)) }
            })
        }

        #[unsafe(export_name = concat!("ivl_map_last_", $bounds))]
        unsafe extern "C" fn map_last(it: *const Map<B>, found: *mut Entry<B>) -> i64 {
            guarded(|| {
                let it = unsafe { reads(it) }?;
                is_place(found)?;
                unsafe { found_at(found, (it.last()).map(Entry::of)) }
            })
        }

        #[unsafe(export_name = concat!("ivl_map_entry_at_", $bounds))]
        unsafe extern "C" fn map_entry_at(it: *const Map<B>, v: B, found: *mut Entry<B>) -> i64 {
            guarded(|| {
                let it = unsafe { reads(it) }?;
                is_place(found)?;
                unsafe { found_at(found, (it.get_run(v)).map(Entry::of)) }
            })
        }

        #[unsafe(export_name = concat!("ivl_map_next_from_", $bounds))]
        unsafe extern "C" fn map_next_from(it: *const Map<B>, v: B, found: *mut Entry<B>) -> i64 {
            guarded(|| {
                let it = unsafe { reads(it) }?;
                is_place(found)?;
                unsafe { found_at(found, (it.next_from(v)).map(Entry::of)) }
            })
        }

        #[unsafe(export_name = concat!("ivl_map_previous_to_", $bounds))]
        unsafe extern "C" fn map_previous_to(it: *const Map<B>, v: B, found: *mut Entry<B>) -> i64 {
            guarded(|| {
                let it = unsafe { reads(it) }?;
                is_place(found)?;
                unsafe { found_at(found, (it.previous_to(v)).map(Entry::of)) }
            })
        }

        #[unsafe(export_name = concat!("ivl_map_first_fit_", $bounds))]
        unsafe extern "C" fn map_first_fit(it: *const Map<B>, lower: B, upper: B, count: u64, found: *mut R) -> i64 {
            guarded(|| {
                let it = unsafe { reads(it) }?;
                let window = window(lower, upper);
                let count = above_0(count)?;
                is_place(found)?;
                unsafe { found_at(found, (it.first_fit(window, count).map_err(out_of_memory)?).map(R::of_run)) }
            })
        }

        #[unsafe(export_name = concat!("ivl_map_keys_", $bounds))]
        unsafe extern "C" fn map_keys(it: *const Map<B>, made: *mut *mut Set<B>) -> i64 {
            guarded(|| {
                let it = unsafe { reads(it) }?;
                is_place(made)?;
                unsafe { made_at(made, || (it.keys().and_then(Set::from_set)).map_err(out_of_memory)) }
            })
        }

        #[unsafe(export_name = concat!("ivl_map_numbers_with_", $bounds))]
        unsafe extern "C" fn map_numbers_with(it: *const Map<B>, value: u64, made: *mut *mut Set<B>) -> i64 {
            guarded(|| {
                let it = unsafe { reads(it) }?;
                is_place(made)?;
                unsafe { made_at(made, || (it.numbers_with(|held| *held == value).and_then(Set::from_set)).map_err(out_of_memory)) }
            })
        }

        #[unsafe(export_name = concat!("ivl_map_gaps_within_", $bounds))]
        unsafe extern "C" fn map_gaps_within(it: *const Map<B>, lower: B, upper: B, made: *mut *mut Set<B>) -> i64 {
            guarded(|| {
                let it = unsafe { reads(it) }?;
                let window = window(lower, upper);
                is_place(made)?;
                unsafe { made_at(made, || (it.gaps_within(window).and_then(Set::from_set)).map_err(out_of_memory)) }
            })
        }

        #[unsafe(export_name = concat!("ivl_map_cut_to_", $bounds))]
        unsafe extern "C" fn map_cut_to(it: *const Map<B>, lower: B, upper: B, made: *mut *mut Map<B>) -> i64 {
            guarded(|| {
                let it = unsafe { reads(it) }?;
                let window = window(lower, upper);
                is_place(made)?;
                unsafe { made_at(made, || (it.cut_to(window)).map_err(out_of_memory)) }
            })
        }

        #[unsafe(export_name = concat!("ivl_solver_new_", $bounds))]
        unsafe extern "C" fn solver_new(made: *mut *mut Solver<B>) -> i64 {
            guarded(|| {
                is_place(made)?;
                unsafe { made_at(made, || Ok(Solver::new())) }
            })
        }

        #[unsafe(export_name = concat!("ivl_solver_clone_", $bounds))]
        unsafe extern "C" fn solver_clone(it: *const Solver<B>, made: *mut *mut Solver<B>) -> i64 {
            guarded(|| {
                let it = unsafe { reads(it) }?;
                is_place(made)?;
                unsafe { made_at(made, || it.try_clone()) }
            })
        }

        #[unsafe(export_name = concat!("ivl_solver_variable_", $bounds))]
        unsafe extern "C" fn solver_variable(it: *mut Solver<B>, lower: B, upper: B) -> i64 {
            guarded(|| {
                let it = unsafe { edits(it) }?;
                let run = run(lower, upper)?;
                it.add_run(run)
            })
        }

        #[unsafe(export_name = concat!("ivl_solver_variables_", $bounds))]
        unsafe extern "C" fn solver_variables(it: *mut Solver<B>, copies: usize, pairs: *const R, n: usize) -> i64 {
            guarded(|| {
                let it = unsafe { edits(it) }?;
                is_list(pairs, n)?; let pairs = inside(unsafe { list(pairs, n) })?;
                it.add(copies, &list_of_pairs(pairs).map_err(out_of_memory)?)
            })
        }

        #[unsafe(export_name = concat!("ivl_solver_variable_count_", $bounds))]
        unsafe extern "C" fn solver_variable_count(it: *const Solver<B>, size: *mut u64) -> i64 {
            guarded(|| {
                let it = unsafe { reads(it) }?;
                is_place(size)?;
                unsafe { size_at(size, it.variable_count()) }
            })
        }

        #[unsafe(export_name = concat!("ivl_solver_domain_", $bounds))]
        unsafe extern "C" fn solver_domain(it: *const Solver<B>, x: i64, out: *mut R, room: usize) -> i64 {
            guarded(|| {
                let it = unsafe { reads(it) }?;
                is_list(out, room)?; let out = unsafe { buffer(out, room) };
                Ok(tell(it.domain(x)?.try_clone(), out))
            })
        }

        #[unsafe(export_name = concat!("ivl_solver_restrict_run_", $bounds))]
        unsafe extern "C" fn solver_restrict_run(it: *mut Solver<B>, x: i64, lower: B, upper: B) -> i64 {
            guarded(|| {
                let it = unsafe { edits(it) }?;
                let window = window(lower, upper);
                (it.restrict_run(x, window)).map(|()| 0)
            })
        }

        #[unsafe(export_name = concat!("ivl_solver_restrict_", $bounds))]
        unsafe extern "C" fn solver_restrict(it: *mut Solver<B>, x: i64, pairs: *const R, n: usize) -> i64 {
            guarded(|| {
                let it = unsafe { edits(it) }?;
                is_list(pairs, n)?; let pairs = inside(unsafe { list(pairs, n) })?;
                (it.restrict(x, &list_of_pairs(pairs).map_err(out_of_memory)?)).map(|()| 0)
            })
        }

        #[unsafe(export_name = concat!("ivl_solver_at_most_", $bounds))]
        unsafe extern "C" fn solver_at_most(it: *mut Solver<B>, x: i64, by: i64, y: i64) -> i64 {
            guarded(|| {
                let it = unsafe { edits(it) }?;
                (it.at_most(x, by, y)).map(|()| 0)
            })
        }

        #[unsafe(export_name = concat!("ivl_solver_equals_", $bounds))]
        unsafe extern "C" fn solver_equals(it: *mut Solver<B>, x: i64, by: i64, y: i64) -> i64 {
            guarded(|| {
                let it = unsafe { edits(it) }?;
                (it.equals(x, by, y)).map(|()| 0)
            })
        }

        #[unsafe(export_name = concat!("ivl_solver_differs_", $bounds))]
        unsafe extern "C" fn solver_differs(it: *mut Solver<B>, x: i64, by: i64, y: i64) -> i64 {
            guarded(|| {
                let it = unsafe { edits(it) }?;
                (it.differs(x, by, y)).map(|()| 0)
            })
        }

        #[unsafe(export_name = concat!("ivl_solver_all_different_", $bounds))]
        unsafe extern "C" fn solver_all_different(it: *mut Solver<B>, variables: *const i64, n: usize) -> i64 {
            guarded(|| {
                let it = unsafe { edits(it) }?;
                is_list(variables, n)?; let variables = unsafe { list(variables, n) };
                (it.all_different(variables)).map(|()| 0)
            })
        }

        #[unsafe(export_name = concat!("ivl_solver_sum_", $bounds))]
        unsafe extern "C" fn solver_sum(it: *mut Solver<B>, variables: *const i64, n: usize, total: i64) -> i64 {
            guarded(|| {
                let it = unsafe { edits(it) }?;
                is_list(variables, n)?; let variables = unsafe { list(variables, n) };
                (it.sum(variables, total)).map(|()| 0)
            })
        }

        #[unsafe(export_name = concat!("ivl_solver_no_overlap_", $bounds))]
        unsafe extern "C" fn solver_no_overlap(it: *mut Solver<B>, tasks: *const Task, n: usize) -> i64 {
            guarded(|| {
                let it = unsafe { edits(it) }?;
                is_list(tasks, n)?; let tasks = unsafe { list(tasks, n) };
                (it.no_overlap(tasks)).map(|()| 0)
            })
        }

        #[unsafe(export_name = concat!("ivl_solver_solutions_", $bounds))]
        unsafe extern "C" fn solver_solutions(it: *const Solver<B>, limits: *const SearchLimits, made: *mut *mut Solutions<B>) -> i64 {
            guarded(|| {
                let it = unsafe { reads(it) }?;
                let limits = unsafe { limits_at(limits) };
                is_place(made)?;
                unsafe { made_at(made, || it.solutions(limits)) }
            })
        }

        #[unsafe(export_name = concat!("ivl_solver_count_", $bounds))]
        unsafe extern "C" fn solver_count(it: *const Solver<B>, limits: *const SearchLimits, count: *mut u64) -> i64 {
            guarded(|| {
                let it = unsafe { reads(it) }?;
                let limits = unsafe { limits_at(limits) };
                is_place(count)?;
                unsafe { counted_at(count, it.count(limits)) }
            })
        }

        #[unsafe(export_name = concat!("ivl_solver_first_", $bounds))]
        unsafe extern "C" fn solver_first(it: *const Solver<B>, limits: *const SearchLimits, numbers: *mut B, room: usize) -> i64 {
            guarded(|| {
                let it = unsafe { reads(it) }?;
                let limits = unsafe { limits_at(limits) };
                is_list(numbers, room)?; let numbers = unsafe { buffer(numbers, room) };
                best(it, it.first(limits), numbers)
            })
        }

        #[unsafe(export_name = concat!("ivl_solver_minimize_", $bounds))]
        unsafe extern "C" fn solver_minimize(it: *const Solver<B>, x: i64, limits: *const SearchLimits, numbers: *mut B, room: usize) -> i64 {
            guarded(|| {
                let it = unsafe { reads(it) }?;
                let limits = unsafe { limits_at(limits) };
                is_list(numbers, room)?; let numbers = unsafe { buffer(numbers, room) };
                best(it, it.minimize(x, limits), numbers)
            })
        }

        #[unsafe(export_name = concat!("ivl_solver_maximize_", $bounds))]
        unsafe extern "C" fn solver_maximize(it: *const Solver<B>, x: i64, limits: *const SearchLimits, numbers: *mut B, room: usize) -> i64 {
            guarded(|| {
                let it = unsafe { reads(it) }?;
                let limits = unsafe { limits_at(limits) };
                is_list(numbers, room)?; let numbers = unsafe { buffer(numbers, room) };
                best(it, it.maximize(x, limits), numbers)
            })
        }

        #[unsafe(export_name = concat!("ivl_solver_stop_", $bounds))]
        unsafe extern "C" fn solver_stop(it: *const Solver<B>, stops: bool) -> i64 {
            guarded(|| {
                let it = unsafe { reads(it) }?;
                done({ it.stop(stops); Ok(()) })
            })
        }

        #[unsafe(export_name = concat!("ivl_solutions_count_", $bounds))]
        unsafe extern "C" fn solutions_count(it: *const Solutions<B>, size: *mut u64) -> i64 {
            guarded(|| {
                let it = unsafe { reads(it) }?;
                is_place(size)?;
                unsafe { size_at(size, it.count()) }
            })
        }

        #[unsafe(export_name = concat!("ivl_solutions_at_", $bounds))]
        unsafe extern "C" fn solutions_at(it: *const Solutions<B>, index: u64, numbers: *mut B, room: usize) -> i64 {
            guarded(|| {
                let it = unsafe { reads(it) }?;
                is_list(numbers, room)?; let numbers = unsafe { buffer(numbers, room) };
                it.at(index, numbers)
            })
        }

        #[unsafe(export_name = concat!("ivl_solutions_next_", $bounds))]
        unsafe extern "C" fn solutions_next(it: *mut Solutions<B>, numbers: *mut B, room: usize) -> i64 {
            guarded(|| {
                let it = unsafe { edits(it) }?;
                is_list(numbers, room)?; let numbers = unsafe { buffer(numbers, room) };
                it.next(numbers)
            })
        }

        #[unsafe(export_name = concat!("ivl_solutions_end_", $bounds))]
        unsafe extern "C" fn solutions_end(it: *const Solutions<B>) -> i64 {
            guarded(|| {
                let it = unsafe { reads(it) }?;
                it.end()
            })
        }
    }
    };
}

calls!(of_i64, i64, PairI64, "i64");
calls!(of_u64, u64, PairU64, "u64");
