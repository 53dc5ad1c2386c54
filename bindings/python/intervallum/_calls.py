# Written by bindings/calls from crates/ivl_c/src/signed.rt.
"""What each call of the library takes and returns."""

from __future__ import annotations

import ctypes
from typing import Any, Callable

POINTER, COUNT = ctypes.c_void_p, ctypes.c_size_t
NUMBER = "number"  # of the type of bounds

SHAPES: dict[str, tuple[list[Any], Any]] = {
    "normalize": ([POINTER, COUNT, POINTER, COUNT], ctypes.c_int64),
    "complement": ([POINTER, COUNT, POINTER, COUNT], ctypes.c_int64),
    "union": ([POINTER, COUNT, POINTER, COUNT, POINTER, COUNT], ctypes.c_int64),
    "intersection": ([POINTER, COUNT, POINTER, COUNT, POINTER, COUNT], ctypes.c_int64),
    "difference": ([POINTER, COUNT, POINTER, COUNT, POINTER, COUNT], ctypes.c_int64),
    "symmetric_difference": ([POINTER, COUNT, POINTER, COUNT, POINTER, COUNT], ctypes.c_int64),
    "is_subset": ([POINTER, COUNT, POINTER, COUNT], ctypes.c_int64),
    "overlap": ([POINTER, COUNT, POINTER, COUNT], ctypes.c_int64),
    "equal": ([POINTER, COUNT, POINTER, COUNT], ctypes.c_int64),
    "size": ([POINTER, COUNT, POINTER], ctypes.c_int64),
    "contains": ([POINTER, COUNT, NUMBER], ctypes.c_bool),
    "contains_sorted": ([POINTER, COUNT, NUMBER], ctypes.c_bool),
    "sums_within": ([POINTER, COUNT, POINTER, COUNT, POINTER, COUNT], ctypes.c_int64),
    "differences_within": ([POINTER, COUNT, POINTER, COUNT, POINTER, COUNT], ctypes.c_int64),
    "products": ([POINTER, COUNT, POINTER, COUNT, POINTER, COUNT], ctypes.c_int64),
    "next_from": ([POINTER, COUNT, NUMBER, POINTER], ctypes.c_bool),
    "next_from_sorted": ([POINTER, COUNT, NUMBER, POINTER], ctypes.c_bool),
    "previous_to_sorted": ([POINTER, COUNT, NUMBER, POINTER], ctypes.c_bool),
    "run_at_sorted": ([POINTER, COUNT, NUMBER, POINTER], ctypes.c_bool),
    "first_fit": ([POINTER, COUNT, ctypes.c_uint64, POINTER], ctypes.c_int64),
    "rank": ([POINTER, COUNT, NUMBER, POINTER], ctypes.c_int64),
    "nth": ([POINTER, COUNT, ctypes.c_uint64, POINTER], ctypes.c_int64),
    "insert": ([POINTER, COUNT, ctypes.c_size_t, NUMBER, NUMBER], ctypes.c_int64),
    "remove": ([POINTER, COUNT, ctypes.c_size_t, NUMBER, NUMBER], ctypes.c_int64),
}

Call = Callable[..., int]


class Calls:
    """The calls of one type of bounds."""

    normalize: Call
    complement: Call
    union: Call
    intersection: Call
    difference: Call
    symmetric_difference: Call
    is_subset: Call
    overlap: Call
    equal: Call
    size: Call
    contains: Call
    contains_sorted: Call
    sums_within: Call
    differences_within: Call
    products: Call
    next_from: Call
    next_from_sorted: Call
    previous_to_sorted: Call
    run_at_sorted: Call
    first_fit: Call
    rank: Call
    nth: Call
    insert: Call
    remove: Call


HANDLE_SHAPES: dict[str, tuple[list[Any], Any]] = {
    "set_free": ([POINTER], None),
    "map_free": ([POINTER], None),
    "solver_free": ([POINTER], None),
    "solutions_free": ([POINTER], None),
    "set_new": ([POINTER], ctypes.c_int64),
    "set_of": ([POINTER, COUNT, POINTER], ctypes.c_int64),
    "set_clone": ([POINTER, POINTER], ctypes.c_int64),
    "set_insert": ([POINTER, NUMBER], ctypes.c_int64),
    "set_remove": ([POINTER, NUMBER], ctypes.c_int64),
    "set_insert_run": ([POINTER, NUMBER, NUMBER], ctypes.c_int64),
    "set_remove_run": ([POINTER, NUMBER, NUMBER], ctypes.c_int64),
    "set_clear": ([POINTER], ctypes.c_int64),
    "set_pop_first": ([POINTER, POINTER], ctypes.c_int64),
    "set_pop_last": ([POINTER, POINTER], ctypes.c_int64),
    "set_take_first_fit": ([POINTER, ctypes.c_uint64, POINTER], ctypes.c_int64),
    "set_contains": ([POINTER, NUMBER], ctypes.c_int64),
    "set_includes": ([POINTER, NUMBER, NUMBER], ctypes.c_int64),
    "set_overlaps": ([POINTER, NUMBER, NUMBER], ctypes.c_int64),
    "set_is_empty": ([POINTER], ctypes.c_int64),
    "set_run_count": ([POINTER, POINTER], ctypes.c_int64),
    "set_size": ([POINTER, POINTER], ctypes.c_int64),
    "set_size_within": ([POINTER, NUMBER, NUMBER, POINTER], ctypes.c_int64),
    "set_rank": ([POINTER, NUMBER, POINTER], ctypes.c_int64),
    "set_first": ([POINTER, POINTER], ctypes.c_int64),
    "set_last": ([POINTER, POINTER], ctypes.c_int64),
    "set_nth": ([POINTER, ctypes.c_uint64, POINTER], ctypes.c_int64),
    "set_next_from": ([POINTER, NUMBER, POINTER], ctypes.c_int64),
    "set_previous_to": ([POINTER, NUMBER, POINTER], ctypes.c_int64),
    "set_run_at": ([POINTER, NUMBER, POINTER], ctypes.c_int64),
    "set_run_from": ([POINTER, NUMBER, POINTER], ctypes.c_int64),
    "set_first_fit": ([POINTER, ctypes.c_uint64, POINTER], ctypes.c_int64),
    "set_first_fit_from": ([POINTER, NUMBER, ctypes.c_uint64, POINTER], ctypes.c_int64),
    "set_best_fit": ([POINTER, ctypes.c_uint64, POINTER], ctypes.c_int64),
    "set_longest_run": ([POINTER, POINTER], ctypes.c_int64),
    "set_is_subset": ([POINTER, POINTER], ctypes.c_int64),
    "set_overlap": ([POINTER, POINTER], ctypes.c_int64),
    "set_equal": ([POINTER, POINTER], ctypes.c_int64),
    "set_union": ([POINTER, POINTER, POINTER], ctypes.c_int64),
    "set_intersection": ([POINTER, POINTER, POINTER], ctypes.c_int64),
    "set_difference": ([POINTER, POINTER, POINTER], ctypes.c_int64),
    "set_symmetric_difference": ([POINTER, POINTER, POINTER], ctypes.c_int64),
    "set_complement": ([POINTER, POINTER], ctypes.c_int64),
    "set_gaps_within": ([POINTER, NUMBER, NUMBER, POINTER], ctypes.c_int64),
    "set_split_off": ([POINTER, NUMBER, POINTER], ctypes.c_int64),
    "set_unite": ([POINTER, POINTER], ctypes.c_int64),
    "set_intersect": ([POINTER, POINTER], ctypes.c_int64),
    "set_subtract": ([POINTER, POINTER], ctypes.c_int64),
    "set_runs": ([POINTER, POINTER, COUNT], ctypes.c_int64),
    "map_new": ([POINTER], ctypes.c_int64),
    "map_clone": ([POINTER, POINTER], ctypes.c_int64),
    "map_insert": ([POINTER, NUMBER, NUMBER, ctypes.c_uint64], ctypes.c_int64),
    "map_insert_if_free": ([POINTER, NUMBER, NUMBER, ctypes.c_uint64], ctypes.c_int64),
    "map_remove": ([POINTER, NUMBER, NUMBER], ctypes.c_int64),
    "map_clear": ([POINTER], ctypes.c_int64),
    "map_is_empty": ([POINTER], ctypes.c_int64),
    "map_contains": ([POINTER, NUMBER], ctypes.c_int64),
    "map_get": ([POINTER, NUMBER, POINTER], ctypes.c_int64),
    "map_entry_count": ([POINTER, POINTER], ctypes.c_int64),
    "map_size": ([POINTER, POINTER], ctypes.c_int64),
    "map_equal": ([POINTER, POINTER], ctypes.c_int64),
    "map_first": ([POINTER, POINTER], ctypes.c_int64),
    "map_last": ([POINTER, POINTER], ctypes.c_int64),
    "map_entry_at": ([POINTER, NUMBER, POINTER], ctypes.c_int64),
    "map_next_from": ([POINTER, NUMBER, POINTER], ctypes.c_int64),
    "map_previous_to": ([POINTER, NUMBER, POINTER], ctypes.c_int64),
    "map_first_fit": ([POINTER, NUMBER, NUMBER, ctypes.c_uint64, POINTER], ctypes.c_int64),
    "map_keys": ([POINTER, POINTER], ctypes.c_int64),
    "map_numbers_with": ([POINTER, ctypes.c_uint64, POINTER], ctypes.c_int64),
    "map_gaps_within": ([POINTER, NUMBER, NUMBER, POINTER], ctypes.c_int64),
    "map_cut_to": ([POINTER, NUMBER, NUMBER, POINTER], ctypes.c_int64),
    "solver_new": ([POINTER], ctypes.c_int64),
    "solver_clone": ([POINTER, POINTER], ctypes.c_int64),
    "solver_variable": ([POINTER, NUMBER, NUMBER], ctypes.c_int64),
    "solver_variables": ([POINTER, COUNT, POINTER, COUNT], ctypes.c_int64),
    "solver_variable_count": ([POINTER, POINTER], ctypes.c_int64),
    "solver_domain": ([POINTER, ctypes.c_int64, POINTER, COUNT], ctypes.c_int64),
    "solver_restrict_run": ([POINTER, ctypes.c_int64, NUMBER, NUMBER], ctypes.c_int64),
    "solver_restrict": ([POINTER, ctypes.c_int64, POINTER, COUNT], ctypes.c_int64),
    "solver_at_most": ([POINTER, ctypes.c_int64, ctypes.c_int64, ctypes.c_int64], ctypes.c_int64),
    "solver_equals": ([POINTER, ctypes.c_int64, ctypes.c_int64, ctypes.c_int64], ctypes.c_int64),
    "solver_differs": ([POINTER, ctypes.c_int64, ctypes.c_int64, ctypes.c_int64], ctypes.c_int64),
    "solver_all_different": ([POINTER, POINTER, COUNT], ctypes.c_int64),
    "solver_sum": ([POINTER, POINTER, COUNT, ctypes.c_int64], ctypes.c_int64),
    "solver_no_overlap": ([POINTER, POINTER, COUNT], ctypes.c_int64),
    "solver_solutions": ([POINTER, POINTER, POINTER], ctypes.c_int64),
    "solver_count": ([POINTER, POINTER, POINTER], ctypes.c_int64),
    "solver_first": ([POINTER, POINTER, POINTER, COUNT], ctypes.c_int64),
    "solver_minimize": ([POINTER, ctypes.c_int64, POINTER, POINTER, COUNT], ctypes.c_int64),
    "solver_maximize": ([POINTER, ctypes.c_int64, POINTER, POINTER, COUNT], ctypes.c_int64),
    "solver_stop": ([POINTER, ctypes.c_bool], ctypes.c_int64),
    "solutions_count": ([POINTER, POINTER], ctypes.c_int64),
    "solutions_at": ([POINTER, ctypes.c_uint64, POINTER, COUNT], ctypes.c_int64),
    "solutions_next": ([POINTER, POINTER, COUNT], ctypes.c_int64),
    "solutions_end": ([POINTER], ctypes.c_int64),
}
