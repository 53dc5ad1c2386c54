// Written by bindings/calls from bindings/handles.txt.
// The calls of intervallum_handles.h by the type of bounds, for intervallum_handles.hpp.
#ifndef INTERVALLUM_HANDLE_CALLS_HPP
#define INTERVALLUM_HANDLE_CALLS_HPP

#include "intervallum_handles.h"

#include <cstdint>

namespace ivl::detail {

template <bool is_signed> struct handle_calls;

#define IVL_HANDLE_CALLS(is_signed, type, of_number) \
    template <> struct handle_calls<is_signed> { \
    using number = of_number; \
    using pair = ivl_pair_##type; \
    using entry = ivl_entry_##type; \
    using set = ivl_set_##type; \
    using map = ivl_map_##type; \
    using solver = ivl_solver_##type; \
    using solutions = ivl_solutions_##type; \
    static constexpr auto set_free = ivl_set_free_##type; \
    static constexpr auto map_free = ivl_map_free_##type; \
    static constexpr auto solver_free = ivl_solver_free_##type; \
    static constexpr auto solutions_free = ivl_solutions_free_##type; \
    static constexpr auto set_new = ivl_set_new_##type; \
    static constexpr auto set_of = ivl_set_of_##type; \
    static constexpr auto set_clone = ivl_set_clone_##type; \
    static constexpr auto set_insert = ivl_set_insert_##type; \
    static constexpr auto set_remove = ivl_set_remove_##type; \
    static constexpr auto set_insert_run = ivl_set_insert_run_##type; \
    static constexpr auto set_remove_run = ivl_set_remove_run_##type; \
    static constexpr auto set_clear = ivl_set_clear_##type; \
    static constexpr auto set_pop_first = ivl_set_pop_first_##type; \
    static constexpr auto set_pop_last = ivl_set_pop_last_##type; \
    static constexpr auto set_take_first_fit = ivl_set_take_first_fit_##type; \
    static constexpr auto set_contains = ivl_set_contains_##type; \
    static constexpr auto set_includes = ivl_set_includes_##type; \
    static constexpr auto set_overlaps = ivl_set_overlaps_##type; \
    static constexpr auto set_is_empty = ivl_set_is_empty_##type; \
    static constexpr auto set_run_count = ivl_set_run_count_##type; \
    static constexpr auto set_size = ivl_set_size_##type; \
    static constexpr auto set_size_within = ivl_set_size_within_##type; \
    static constexpr auto set_rank = ivl_set_rank_##type; \
    static constexpr auto set_first = ivl_set_first_##type; \
    static constexpr auto set_last = ivl_set_last_##type; \
    static constexpr auto set_nth = ivl_set_nth_##type; \
    static constexpr auto set_next_from = ivl_set_next_from_##type; \
    static constexpr auto set_previous_to = ivl_set_previous_to_##type; \
    static constexpr auto set_run_at = ivl_set_run_at_##type; \
    static constexpr auto set_run_from = ivl_set_run_from_##type; \
    static constexpr auto set_first_fit = ivl_set_first_fit_##type; \
    static constexpr auto set_first_fit_from = ivl_set_first_fit_from_##type; \
    static constexpr auto set_best_fit = ivl_set_best_fit_##type; \
    static constexpr auto set_longest_run = ivl_set_longest_run_##type; \
    static constexpr auto set_is_subset = ivl_set_is_subset_##type; \
    static constexpr auto set_overlap = ivl_set_overlap_##type; \
    static constexpr auto set_equal = ivl_set_equal_##type; \
    static constexpr auto set_union = ivl_set_union_##type; \
    static constexpr auto set_intersection = ivl_set_intersection_##type; \
    static constexpr auto set_difference = ivl_set_difference_##type; \
    static constexpr auto set_symmetric_difference = ivl_set_symmetric_difference_##type; \
    static constexpr auto set_complement = ivl_set_complement_##type; \
    static constexpr auto set_gaps_within = ivl_set_gaps_within_##type; \
    static constexpr auto set_split_off = ivl_set_split_off_##type; \
    static constexpr auto set_unite = ivl_set_unite_##type; \
    static constexpr auto set_intersect = ivl_set_intersect_##type; \
    static constexpr auto set_subtract = ivl_set_subtract_##type; \
    static constexpr auto set_runs = ivl_set_runs_##type; \
    static constexpr auto map_new = ivl_map_new_##type; \
    static constexpr auto map_clone = ivl_map_clone_##type; \
    static constexpr auto map_insert = ivl_map_insert_##type; \
    static constexpr auto map_insert_if_free = ivl_map_insert_if_free_##type; \
    static constexpr auto map_remove = ivl_map_remove_##type; \
    static constexpr auto map_clear = ivl_map_clear_##type; \
    static constexpr auto map_is_empty = ivl_map_is_empty_##type; \
    static constexpr auto map_contains = ivl_map_contains_##type; \
    static constexpr auto map_get = ivl_map_get_##type; \
    static constexpr auto map_entry_count = ivl_map_entry_count_##type; \
    static constexpr auto map_size = ivl_map_size_##type; \
    static constexpr auto map_equal = ivl_map_equal_##type; \
    static constexpr auto map_first = ivl_map_first_##type; \
    static constexpr auto map_last = ivl_map_last_##type; \
    static constexpr auto map_entry_at = ivl_map_entry_at_##type; \
    static constexpr auto map_next_from = ivl_map_next_from_##type; \
    static constexpr auto map_previous_to = ivl_map_previous_to_##type; \
    static constexpr auto map_first_fit = ivl_map_first_fit_##type; \
    static constexpr auto map_keys = ivl_map_keys_##type; \
    static constexpr auto map_numbers_with = ivl_map_numbers_with_##type; \
    static constexpr auto map_gaps_within = ivl_map_gaps_within_##type; \
    static constexpr auto map_cut_to = ivl_map_cut_to_##type; \
    static constexpr auto solver_new = ivl_solver_new_##type; \
    static constexpr auto solver_clone = ivl_solver_clone_##type; \
    static constexpr auto solver_variable = ivl_solver_variable_##type; \
    static constexpr auto solver_variables = ivl_solver_variables_##type; \
    static constexpr auto solver_variable_count = ivl_solver_variable_count_##type; \
    static constexpr auto solver_domain = ivl_solver_domain_##type; \
    static constexpr auto solver_restrict_run = ivl_solver_restrict_run_##type; \
    static constexpr auto solver_restrict = ivl_solver_restrict_##type; \
    static constexpr auto solver_at_most = ivl_solver_at_most_##type; \
    static constexpr auto solver_equals = ivl_solver_equals_##type; \
    static constexpr auto solver_differs = ivl_solver_differs_##type; \
    static constexpr auto solver_all_different = ivl_solver_all_different_##type; \
    static constexpr auto solver_sum = ivl_solver_sum_##type; \
    static constexpr auto solver_no_overlap = ivl_solver_no_overlap_##type; \
    static constexpr auto solver_solutions = ivl_solver_solutions_##type; \
    static constexpr auto solver_count = ivl_solver_count_##type; \
    static constexpr auto solver_first = ivl_solver_first_##type; \
    static constexpr auto solver_minimize = ivl_solver_minimize_##type; \
    static constexpr auto solver_maximize = ivl_solver_maximize_##type; \
    static constexpr auto solver_stop = ivl_solver_stop_##type; \
    static constexpr auto solutions_count = ivl_solutions_count_##type; \
    static constexpr auto solutions_at = ivl_solutions_at_##type; \
    static constexpr auto solutions_next = ivl_solutions_next_##type; \
    static constexpr auto solutions_end = ivl_solutions_end_##type; \
    }
IVL_HANDLE_CALLS(true, i64, std::int64_t);
IVL_HANDLE_CALLS(false, u64, std::uint64_t);
#undef IVL_HANDLE_CALLS

} // namespace ivl::detail

#endif
