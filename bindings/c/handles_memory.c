/* Lets each request for memory of each call of handles that makes one fail in turn: the call answers IVL_OUT_OF_MEMORY and changes
   nothing, or does what it does. */
#include "intervallum_handles.h"

#include "refused.h"

#include <stdio.h>

static ivl_set_i64 *a, *b, *made;
static ivl_map_i64 *map, *made_map;
static ivl_solver_i64 *solver, *made_solver;
static ivl_solutions_i64 *made_solutions;
static int64_t numbers[3];
static uint64_t count;
static const int64_t all[] = {0, 1, 2};
static const ivl_task tasks[] = {{0, 2}, {1, 1}, {2, 1}};
static ivl_pair_i64 run;

#define OF_CALL(name, call)                                                                                                 \
    static int64_t name(void) {                                                                                             \
        return call;                                                                                                        \
    }
OF_CALL(make, ivl_set_new_i64(&made))
OF_CALL(clone, ivl_set_clone_i64(a, &made))
OF_CALL(insert, ivl_set_insert_i64(a, 5))
OF_CALL(insert_run, ivl_set_insert_run_i64(a, 100001, 200001))
OF_CALL(remove_run, ivl_set_remove_run_i64(a, 21, 21))
OF_CALL(unite, ivl_set_union_i64(a, b, &made))
OF_CALL(intersection, ivl_set_intersection_i64(a, b, &made))
OF_CALL(difference, ivl_set_difference_i64(a, b, &made))
OF_CALL(symmetric_difference, ivl_set_symmetric_difference_i64(a, b, &made))
OF_CALL(complement, ivl_set_complement_i64(a, &made))
OF_CALL(gaps_within, ivl_set_gaps_within_i64(a, 0, 99, &made))
OF_CALL(split_off, ivl_set_split_off_i64(a, 500, &made))
OF_CALL(unite_in_place, ivl_set_unite_i64(a, b))
OF_CALL(intersect_in_place, ivl_set_intersect_i64(a, b))
OF_CALL(subtract_in_place, ivl_set_subtract_i64(a, b))
OF_CALL(unite_itself, ivl_set_unite_i64(a, a))
OF_CALL(runs, ivl_set_runs_i64(a, &run, 1))
OF_CALL(map_new, ivl_map_new_i64(&made_map))
OF_CALL(map_clone, ivl_map_clone_i64(map, &made_map))
OF_CALL(map_insert, ivl_map_insert_i64(map, 3, 3, 9))
OF_CALL(map_insert_if_free, ivl_map_insert_if_free_i64(map, 5000, 5001, 9))
OF_CALL(map_remove, ivl_map_remove_i64(map, 3, 3))
OF_CALL(map_keys, ivl_map_keys_i64(map, &made))
OF_CALL(map_numbers_with, ivl_map_numbers_with_i64(map, 1, &made))
OF_CALL(map_gaps_within, ivl_map_gaps_within_i64(map, 0, 99, &made))
OF_CALL(map_cut_to, ivl_map_cut_to_i64(map, 3, 60, &made_map))
OF_CALL(solver_new, ivl_solver_new_i64(&made_solver))
OF_CALL(solver_clone, ivl_solver_clone_i64(solver, &made_solver))
OF_CALL(variables, ivl_solver_variables_i64(solver, 20, &run, 1))
OF_CALL(restrict_run, ivl_solver_restrict_run_i64(solver, 0, 3, 4))
OF_CALL(at_most, ivl_solver_at_most_i64(solver, 0, 1, 1))
OF_CALL(all_different, ivl_solver_all_different_i64(solver, all, 3))
OF_CALL(sum, ivl_solver_sum_i64(solver, all, 2, 2))
OF_CALL(no_overlap, ivl_solver_no_overlap_i64(solver, tasks, 3))
OF_CALL(solutions, ivl_solver_solutions_i64(solver, NULL, &made_solutions))
OF_CALL(count_of, ivl_solver_count_i64(solver, NULL, &count))
OF_CALL(minimize, ivl_solver_minimize_i64(solver, 1, NULL, numbers, 3))
OF_CALL(map_first_fit, ivl_map_first_fit_i64(map, 0, 99, 1, &run))

static const struct {
    const char *name;
    int64_t (*made)(void);
} calls[] = {
    {"new", make}, {"clone", clone}, {"insert", insert}, {"insert_run", insert_run}, {"remove_run", remove_run}, {"union", unite},
    {"intersection", intersection}, {"difference", difference}, {"symmetric_difference", symmetric_difference},
    {"complement", complement}, {"gaps_within", gaps_within}, {"split_off", split_off}, {"unite", unite_in_place},
    {"intersect", intersect_in_place}, {"subtract", subtract_in_place}, {"unite itself", unite_itself}, {"runs", runs},
    {"map new", map_new}, {"map clone", map_clone}, {"map insert", map_insert}, {"map insert_if_free", map_insert_if_free},
    {"map remove", map_remove}, {"map keys", map_keys}, {"map numbers_with", map_numbers_with}, {"map gaps_within", map_gaps_within},
    {"map cut_to", map_cut_to}, {"map first_fit", map_first_fit}, {"solver new", solver_new}, {"solver clone", solver_clone},
    {"variables", variables}, {"restrict", restrict_run}, {"at_most", at_most}, {"all_different", all_different}, {"sum", sum},
    {"no_overlap", no_overlap}, {"solutions", solutions}, {"count", count_of}, {"minimize", minimize},
};

static int failures, refusals;

static void expect(int is_so, const char *name, const char *what) {
    if (!is_so) {
        printf("failed: %s: %s\n", name, what);
        failures++;
    }
}

/* Sets of full pages, so that an edit may need a new one. */
static void fill(void) {
    int64_t told = ivl_set_new_i64(&a) | ivl_set_new_i64(&b) | ivl_map_new_i64(&map);
    for (int64_t i = 0; i < 600; i++)
        told |= ivl_set_insert_run_i64(a, 10 * i, 10 * i + 2) < 0 || ivl_set_insert_i64(b, 7 * i) < 0 ||
                ivl_map_insert_i64(map, 2 * i, 2 * i + 1, (uint64_t)i % 5) < 0;
    /* few of the numbers of three variables, and each kind of rule */
    const ivl_pair_i64 domain = {1, 6};
    told |= ivl_solver_new_i64(&solver) | ivl_solver_variables_i64(solver, 3, &domain, 1) | ivl_solver_at_most_i64(solver, 0, 1, 2) |
            ivl_solver_no_overlap_i64(solver, tasks, 2) | ivl_solver_sum_i64(solver, all, 2, 2);
    expect(told == 0, "fill", "no code");
}

/* What is asked of the model before and after a call. */
static uint64_t asked(void) {
    uint64_t variables_now = 0, count_now = 0;
    int64_t told = ivl_solver_variable_count_i64(solver, &variables_now) | ivl_solver_count_i64(solver, NULL, &count_now);
    return told == 0 ? 1000 * variables_now + count_now : 0;
}

static void empty(void) {
    ivl_set_free_i64(a);
    ivl_set_free_i64(b);
    ivl_set_free_i64(made);
    ivl_map_free_i64(map);
    ivl_map_free_i64(made_map);
    ivl_solver_free_i64(solver);
    ivl_solver_free_i64(made_solver);
    ivl_solutions_free_i64(made_solutions);
    made = NULL;
    made_map = NULL;
    made_solver = NULL;
    made_solutions = NULL;
}

/* Makes a call with one request refused after so many that are met: whether one was refused. */
static int refuse_one(const char *name, int64_t (*call)(void), int before) {
    fill();
    ivl_set_i64 *a_before = NULL;
    ivl_map_i64 *map_before = NULL;
    int64_t cloned = ivl_set_clone_i64(a, &a_before) | ivl_map_clone_i64(map, &map_before);
    uint64_t asked_before = asked();
    refuse_after(before);
    int64_t told = call();
    int is_one_refused = was_refused();
    expect(cloned == 0 && (told >= 0 || told == IVL_OUT_OF_MEMORY), name, "another code");
    if (is_one_refused) {
        refusals++;
        expect(told == IVL_OUT_OF_MEMORY, name, "no code");
        expect(!made && !made_map && !made_solver && !made_solutions, name, "a handle was written");
        expect(asked_before > 3000 && asked() == asked_before, name, "the model was changed");
        expect(ivl_set_equal_i64(a, a_before) == 1 && ivl_map_equal_i64(map, map_before) == 1, name, "it was changed");
    }
    ivl_set_free_i64(a_before);
    ivl_map_free_i64(map_before);
    empty();
    return is_one_refused;
}

int main(void) {
    for (size_t i = 0; i < sizeof calls / sizeof calls[0]; i++)
        for (int before = 0; before < 500 && refuse_one(calls[i].name, calls[i].made, before); before++)
            continue;
    printf("%d failed, %d requests refused\n", failures, refusals);
    return failures != 0 || refusals < 50;
}
