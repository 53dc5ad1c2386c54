/* Ports with owners, and three tasks one after another. The same program stands in C++, Python and Rust, and writes the same text. */
#include "intervallum_handles.h"
#include <inttypes.h>
#include <stdio.h>
#include <stdlib.h>

/* What a call found, or the end of the program. */
static int64_t must(int64_t told) {
    if (told < 0) {
        fprintf(stderr, "%s\n", ivl_error_text(told));
        exit(1);
    }
    return told;
}

int main(void) {
    /* the free ports in pages, and who holds the others, by the index of a name */
    const char *names[] = {"anna", "bela", "cleo"};
    const uint64_t counts[] = {8, 4, 2};
    const ivl_pair_i64 all = {1024, 65535};
    ivl_set_i64 *free_ports = NULL;
    ivl_map_i64 *owners = NULL;
    ivl_pair_i64 found = {0, 0};
    ivl_entry_i64 held;
    uint64_t size = 0, runs = 0;
    must(ivl_set_of_i64(&all, 1, &free_ports) | ivl_map_new_i64(&owners));
    for (uint64_t i = 0; i < 3; i++) {
        must(ivl_set_take_first_fit_i64(free_ports, counts[i], &found));
        must(ivl_map_insert_i64(owners, found.lower, found.upper, i));
    }
    /* bela gives two back, and cleo gets one of anna's */
    must(ivl_map_remove_i64(owners, 1034, 1035));
    must(ivl_set_insert_run_i64(free_ports, 1034, 1035));
    must(ivl_map_insert_i64(owners, 1031, 1031, 2));
    for (int64_t at = 0; must(ivl_map_next_from_i64(owners, at, &held)) == 1; at = held.upper + 1)
        printf("%" PRId64 "..%" PRId64 " %s\n", held.lower, held.upper, names[held.value]);
    must(ivl_set_size_i64(free_ports, &size) | ivl_set_run_count_i64(free_ports, &runs));
    printf("%" PRIu64 " ports are free, in %" PRIu64 " runs\n", size, runs);
    must(ivl_map_first_fit_i64(owners, 1024, 2000, 5, &found));
    printf("the lowest 5 without an owner: %" PRId64 "..%" PRId64 "\n", found.lower, found.upper);
    ivl_set_free_i64(free_ports);
    ivl_map_free_i64(owners);

    /* a copy of 3 hours, then a check of 2; a transfer of 4, from hour 5 on; one at a time, and over as soon as they can be */
    ivl_solver_i64 *day = NULL;
    must(ivl_solver_new_i64(&day));
    int64_t copy = must(ivl_solver_variable_i64(day, 0, 20)), check = must(ivl_solver_variable_i64(day, 0, 20));
    int64_t transfer = must(ivl_solver_variable_i64(day, 5, 20)), end = must(ivl_solver_variable_i64(day, 0, 24)), best[4];
    const ivl_task tasks[] = {{copy, 3}, {check, 2}, {transfer, 4}};
    must(ivl_solver_no_overlap_i64(day, tasks, 3));
    must(ivl_solver_at_most_i64(day, copy, 3, check));
    must(ivl_solver_at_most_i64(day, check, 2, end));
    must(ivl_solver_at_most_i64(day, transfer, 4, end));
    if (must(ivl_solver_minimize_i64(day, end, NULL, best, 4)) != 1)
        return 1;
    printf("copy at %" PRId64 ", check at %" PRId64 ", transfer at %" PRId64 ", over at %" PRId64 "\n", best[copy], best[check],
           best[transfer], best[end]);
    must(ivl_solver_restrict_run_i64(day, end, 0, 12));
    must(ivl_solver_count_i64(day, NULL, &size));
    printf("%" PRIu64 " plans are over by 12\n", size);
    must(ivl_solver_restrict_run_i64(day, end, 0, 8));
    printf("over by 8: %s\n", must(ivl_solver_first_i64(day, NULL, best, 4)) ? "yes" : "no");
    ivl_solver_free_i64(day);
    return 0;
}
