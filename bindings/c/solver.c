/* Models behind handles beside all points of four variables, with the numbers near both ends of each type and near zero; what a null
   pointer, an index of no variable, and a variable that stands twice get; and a search that is told to stop.
   solver [ROUNDS [SEED]]; its last line tells how many calls agreed. */
#include "agree.h"
#include "intervallum_handles.h"

#include <pthread.h>

enum { VARIABLES = 4, SPAN = 5, POINTS = SPAN * SPAN * SPAN * SPAN, RULES = 3 };

/* The place of a variable at a point. */
static unsigned place_of(unsigned point, unsigned variable) {
    for (; variable < VARIABLES - 1; variable++)
        point /= SPAN;
    return point % SPAN;
}

/* Whether two tasks, of which one begins so much after the other, do not overlap. */
static int are_apart(long long distance, long long length, long long other) {
    return distance >= length || -distance >= other;
}

#define OF_TYPE(T, NUMBER)                                                                                                    \
    /* A rule, by its kind and what it is about; numbers are those of places above a base. */                                 \
    typedef struct {                                                                                                          \
        unsigned kind, x, y, length, other;                                                                                   \
        int64_t by;                                                                                                           \
    } rule_##T;                                                                                                               \
                                                                                                                              \
    static int64_t add_##T(ivl_solver_##T *solver, const rule_##T *it) {                                                      \
        const int64_t all[] = {0, 1, 2, 3}, x = it->x, y = it->y;                                                             \
        const ivl_task tasks[] = {{x, it->length}, {y, it->other}};                                                           \
        switch (it->kind) {                                                                                                   \
        case 0:                                                                                                               \
            return ivl_solver_at_most_##T(solver, x, it->by, y);                                                              \
        case 1:                                                                                                               \
            return ivl_solver_equals_##T(solver, x, it->by, y);                                                               \
        case 2:                                                                                                               \
            return ivl_solver_differs_##T(solver, x, it->by, y);                                                              \
        case 3:                                                                                                               \
            return ivl_solver_all_different_##T(solver, all, it->x + 1);                                                      \
        case 4:                                                                                                               \
            return ivl_solver_no_overlap_##T(solver, tasks, 2);                                                               \
        default:                                                                                                              \
            return ivl_solver_sum_##T(solver, all, it->length, 3);                                                            \
        }                                                                                                                     \
    }                                                                                                                         \
                                                                                                                              \
    static int holds_##T(const rule_##T *it, const unsigned *at, long long base) {                                            \
        long long x = at[it->x], y = at[it->y], sum = -base - at[3];                                                          \
        switch (it->kind) {                                                                                                   \
        case 0:                                                                                                               \
            return x + it->by <= y;                                                                                           \
        case 1:                                                                                                               \
            return x + it->by == y;                                                                                           \
        case 2:                                                                                                               \
            return x + it->by != y;                                                                                           \
        case 3:                                                                                                               \
            for (unsigned i = 0; i <= it->x; i++)                                                                             \
                for (unsigned k = 0; k < i; k++)                                                                              \
                    if (at[i] == at[k])                                                                                       \
                        return 0;                                                                                             \
            return 1;                                                                                                         \
        case 4:                                                                                                               \
            return are_apart(y - x, it->length, it->other);                                                                   \
        default:                                                                                                              \
            for (unsigned i = 0; i < it->length; i++)                                                                         \
                sum += base + at[i];                                                                                          \
            return sum == 0;                                                                                                  \
        }                                                                                                                     \
    }                                                                                                                         \
                                                                                                                              \
    /* The solutions, each as one number of its places, beside those of the model. */                                         \
    static void same_##T(const ivl_solver_##T *solver, const char *is_solution, unsigned count, NUMBER base) {                \
        static char seen[POINTS];                                                                                             \
        ivl_solutions_##T *found = NULL;                                                                                      \
        NUMBER point[VARIABLES], other[VARIABLES];                                                                            \
        uint64_t size = 9999;                                                                                                 \
        AGREE(ivl_solver_solutions_##T(solver, NULL, &found), 0);                                                             \
        for (unsigned i = 0; i < sizeof seen; i++)                                                                            \
            seen[i] = 0;                                                                                                      \
        for (uint64_t i = 0; i < count; i++) {                                                                                \
            AGREE(ivl_solutions_next_##T(found, point, VARIABLES), 1);                                                        \
            AGREE(ivl_solutions_at_##T(found, i, other, VARIABLES), 1);                                                       \
            unsigned place = 0;                                                                                               \
            for (unsigned k = 0; k < VARIABLES; k++) {                                                                        \
                AGREE(other[k], point[k]);                                                                                    \
                place = place * SPAN + (unsigned)(point[k] - base);                                                           \
            }                                                                                                                 \
            AGREE(place < sizeof seen && is_solution[place] && !seen[place]++, 1);                                            \
        }                                                                                                                     \
        AGREE(ivl_solutions_next_##T(found, point, VARIABLES), 0);                                                            \
        AGREE(ivl_solutions_at_##T(found, count, point, VARIABLES), 0);                                                       \
        AGREE(ivl_solutions_end_##T(found), IVL_ALL);                                                                         \
        AGREE(ivl_solutions_count_##T(found, &size) == 0 && size == count, 1);                                                \
        AGREE(ivl_solver_count_##T(solver, NULL, &size) == IVL_ALL && size == count, 1);                                      \
        AGREE(ivl_solver_first_##T(solver, NULL, point, VARIABLES), count > 0);                                               \
        ivl_solutions_free_##T(found);                                                                                        \
    }                                                                                                                         \
                                                                                                                              \
    static void best_##T(const ivl_solver_##T *solver, const char *is_solution, unsigned count, NUMBER base) {                \
        unsigned x = draw(VARIABLES), least = SPAN, most = 0;                                                                 \
        NUMBER point[VARIABLES] = {0};                                                                                        \
        for (unsigned place = 0; place < POINTS; place++) {                                                                   \
            unsigned at = place_of(place, x);                                                                                 \
            least = is_solution[place] && at < least ? at : least;                                                            \
            most = is_solution[place] && at > most ? at : most;                                                               \
        }                                                                                                                     \
        AGREE(ivl_solver_minimize_##T(solver, x, NULL, point, VARIABLES), count > 0);                                         \
        AGREE(count == 0 || point[x] == (NUMBER)(base + (NUMBER)least), 1);                                                   \
        AGREE(ivl_solver_maximize_##T(solver, x, NULL, point, VARIABLES), count > 0);                                         \
        AGREE(count == 0 || point[x] == (NUMBER)(base + (NUMBER)most), 1);                                                    \
        /* with a limit, there is no answer, or one that may not be the best */                                               \
        const ivl_limits few = {1, 1 + draw(4)};                                                                              \
        int64_t told = ivl_solver_maximize_##T(solver, x, &few, point, VARIABLES);                                            \
        AGREE(told == IVL_UNFINISHED || (told == 0 && count == 0) || ((told == 1 || told == 2) && count > 0), 1);             \
        uint64_t size = 9999;                                                                                                 \
        told = ivl_solver_count_##T(solver, &few, &size);                                                                     \
        AGREE(size <= 1 && (told == IVL_ALL ? size == count : told == IVL_MOST_SOLUTIONS ? count > 0 : told == IVL_MOST_NODES), 1);\
    }                                                                                                                         \
                                                                                                                              \
    static void round_##T(NUMBER base, unsigned kinds, long long sum_base) {                                                  \
        static char is_solution[POINTS];                                                                                      \
        ivl_solver_##T *solver = NULL, *copy = NULL;                                                                          \
        unsigned flags[VARIABLES], count = 0;                                                                                 \
        uint64_t size = 99;                                                                                                   \
        AGREE(ivl_solver_new_##T(&solver), 0);                                                                                \
        for (unsigned i = 0; i < VARIABLES; i++) {                                                                            \
            ivl_pair_##T pairs[2];                                                                                            \
            flags[i] = 0;                                                                                                     \
            for (unsigned k = 0; k < 2; k++) {                                                                                \
                unsigned lower = draw(SPAN), upper = draw(SPAN);                                                              \
                pairs[k].lower = (NUMBER)(base + (NUMBER)lower);                                                              \
                pairs[k].upper = (NUMBER)(base + (NUMBER)upper);                                                              \
                for (; lower <= upper; lower++)                                                                               \
                    flags[i] |= 1u << lower;                                                                                  \
            }                                                                                                                 \
            AGREE(ivl_solver_variables_##T(solver, 1, pairs, 2), i);                                                          \
        }                                                                                                                     \
        AGREE(ivl_solver_variable_count_##T(solver, &size) == 0 && size == VARIABLES, 1);                                     \
        rule_##T rules[RULES];                                                                                                \
        for (unsigned i = 0; i < RULES; i++) {                                                                                \
            rule_##T it = {draw(kinds), draw(VARIABLES), 0, draw(4), draw(4), (int64_t)draw(7) - 3};                          \
            it.y = (it.x + 1 + draw(3)) % VARIABLES;                                                                          \
            rules[i] = it;                                                                                                    \
            AGREE(add_##T(solver, &it), 0);                                                                                   \
        }                                                                                                                     \
        unsigned x = draw(VARIABLES), lower = draw(SPAN), upper = draw(SPAN);                                                 \
        AGREE(ivl_solver_clone_##T(solver, &copy), 0);                                                                        \
        AGREE(ivl_solver_restrict_run_##T(solver, x, (NUMBER)(base + (NUMBER)lower), (NUMBER)(base + (NUMBER)upper)), 0);     \
        for (unsigned i = 0; i < SPAN; i++)                                                                                   \
            flags[x] &= i < lower || i > upper ? ~(1u << i) : ~0u;                                                            \
        for (unsigned place = 0; place < POINTS; place++) {                                                                   \
            unsigned at[VARIABLES];                                                                                           \
            int is_one = 1;                                                                                                   \
            for (unsigned i = 0; i < VARIABLES; i++) {                                                                        \
                at[i] = place_of(place, i);                                                                                   \
                is_one = is_one && (flags[i] >> at[i] & 1);                                                                   \
            }                                                                                                                 \
            for (unsigned i = 0; i < RULES; i++)                                                                              \
                is_one = is_one && holds_##T(&rules[i], at, sum_base);                                                        \
            is_solution[place] = (char)is_one;                                                                                \
            count += (unsigned)is_one;                                                                                        \
        }                                                                                                                     \
        same_##T(solver, is_solution, count, base);                                                                           \
        best_##T(solver, is_solution, count, base);                                                                           \
        ivl_pair_##T allowed = {(NUMBER)(base + (NUMBER)lower), (NUMBER)(base + (NUMBER)upper)};                              \
        AGREE(ivl_solver_restrict_##T(copy, x, &allowed, 1), 0);                                                              \
        same_##T(copy, is_solution, count, base);                                                                             \
        ivl_solver_free_##T(copy);                                                                                            \
        ivl_solver_free_##T(solver);                                                                                          \
    }                                                                                                                         \
                                                                                                                              \
    static void misuse_##T(NUMBER out, NUMBER low, NUMBER high) {                                                             \
        ivl_solver_##T *solver = NULL;                                                                                        \
        ivl_solutions_##T *found = NULL;                                                                                      \
        NUMBER point[4] = {7, 7, 7, 7};                                                                                       \
        const int64_t twice[] = {0, 1, 0}, unknown[] = {0, 5}, two[] = {0, 1};                                                \
        const ivl_task tasks[] = {{0, 1}, {0, 2}}, far[] = {{0, 1}, {9, 1}}, whole[] = {{2, 1}, {3, 1}};                      \
        const ivl_pair_##T pair = {1, 3}, outside = {out, out}, all = {low, high};                                            \
        uint64_t size = 7;                                                                                                    \
        ivl_solver_free_##T(NULL);                                                                                            \
        ivl_solutions_free_##T(NULL);                                                                                         \
        AGREE(ivl_solver_new_##T(NULL), IVL_NULL);                                                                            \
        AGREE(ivl_solver_variable_##T(NULL, 0, 9), IVL_NULL);                                                                 \
        AGREE(ivl_solver_solutions_##T(NULL, NULL, &found), IVL_NULL);                                                        \
        AGREE(ivl_solutions_next_##T(NULL, point, 1), IVL_NULL);                                                              \
        AGREE(ivl_solver_new_##T(&solver), 0);                                                                                \
        AGREE(ivl_solver_variables_##T(solver, 2, &pair, 1), 0);                                                              \
        AGREE(ivl_solver_variables_##T(solver, 1, NULL, 1), IVL_NULL);                                                        \
        AGREE(ivl_solver_variables_##T(solver, 1, &outside, 1), IVL_OUT_OF_RANGE);                                            \
        AGREE(ivl_solver_variable_##T(solver, out, out), IVL_OUT_OF_RANGE);                                                   \
        AGREE(ivl_solver_variables_##T(solver, 2, &all, 1), 2);                                                               \
        AGREE(ivl_solver_at_most_##T(solver, 0, 1, 4), IVL_UNKNOWN_VARIABLE);                                                 \
        AGREE(ivl_solver_equals_##T(solver, IVL_NULL, 1, 1), IVL_UNKNOWN_VARIABLE);                                           \
        AGREE(ivl_solver_differs_##T(solver, 1, 0, 1), IVL_SAME_VARIABLE);                                                    \
        AGREE(ivl_solver_all_different_##T(solver, twice, 3), IVL_SAME_VARIABLE);                                             \
        AGREE(ivl_solver_all_different_##T(solver, unknown, 2), IVL_UNKNOWN_VARIABLE);                                        \
        AGREE(ivl_solver_all_different_##T(solver, NULL, 2), IVL_NULL);                                                       \
        AGREE(ivl_solver_sum_##T(solver, two, 2, 1), IVL_SAME_VARIABLE);                                                      \
        AGREE(ivl_solver_sum_##T(solver, twice, 3, 2), IVL_SAME_VARIABLE);                                                    \
        AGREE(ivl_solver_no_overlap_##T(solver, tasks, 2), IVL_SAME_VARIABLE);                                                \
        AGREE(ivl_solver_no_overlap_##T(solver, far, 2), IVL_UNKNOWN_VARIABLE);                                               \
        AGREE(ivl_solver_no_overlap_##T(solver, whole, 2), IVL_SUM_OUT_OF_RANGE);                                             \
        AGREE(ivl_solver_minimize_##T(solver, 4, NULL, point, 4), IVL_UNKNOWN_VARIABLE);                                      \
        AGREE(ivl_solver_count_##T(solver, NULL, NULL), IVL_NULL);                                                            \
        AGREE(ivl_solver_first_##T(solver, NULL, NULL, 4), IVL_NULL);                                                         \
        AGREE(ivl_solver_solutions_##T(solver, NULL, NULL), IVL_NULL);                                                        \
        AGREE(point[0], 7);                                                                                                   \
        /* no rule was added; of less room, the first numbers are written */                                                  \
        AGREE(ivl_solver_restrict_run_##T(solver, 2, 5, 5) | ivl_solver_restrict_run_##T(solver, 3, 6, 6), 0);                \
        AGREE(ivl_solver_count_##T(solver, NULL, &size) == IVL_ALL && size == 9, 1);                                          \
        AGREE(ivl_solver_minimize_##T(solver, 1, NULL, point, 2), 1);                                                         \
        AGREE(point[1] == 1 && point[2] == 7 && point[3] == 7, 1);                                                            \
        const ivl_limits none = {9, 0}, one = {1, 99}, few = {99, 3};                                                         \
        AGREE(ivl_solver_first_##T(solver, &none, point, 4), IVL_UNFINISHED);                                                 \
        AGREE(ivl_solver_count_##T(solver, &one, &size) == IVL_MOST_SOLUTIONS && size == 1, 1);                               \
        AGREE(ivl_solver_count_##T(solver, &few, &size) == IVL_MOST_NODES && size < 9, 1);                                    \
        AGREE(ivl_solver_solutions_##T(solver, &one, &found), 0);                                                             \
        AGREE(ivl_solutions_next_##T(found, point, 4), 1);                                                                    \
        AGREE(ivl_solutions_next_##T(found, point, 4), IVL_UNFINISHED);                                                       \
        AGREE(ivl_solutions_end_##T(found), IVL_MOST_SOLUTIONS);                                                              \
        ivl_solutions_free_##T(found);                                                                                        \
        AGREE(ivl_solver_stop_##T(solver, true), 0);                                                                          \
        AGREE(ivl_solver_count_##T(solver, NULL, &size), IVL_STOPPED);                                                        \
        AGREE(ivl_solver_stop_##T(solver, false), 0);                                                                         \
        AGREE(ivl_solver_restrict_run_##T(solver, 0, 4, 9), 0);                                                               \
        AGREE(ivl_solver_minimize_##T(solver, 0, NULL, point, 4), 0);                                                         \
        ivl_solver_free_##T(solver);                                                                                          \
    }
OF_TYPE(i64, int64_t)
OF_TYPE(u64, uint64_t)

static int64_t told;
static uint64_t counted = 7;

static void *count_all(void *solver) {
    const ivl_limits limits = {UINT64_MAX, UINT64_MAX};
    told = ivl_solver_count_i64(solver, &limits, &counted);
    return NULL;
}

/* A search of 20 different numbers of 20, which would take for ever. */
static void stops(void) {
    ivl_solver_i64 *solver = NULL;
    const ivl_pair_i64 numbers = {1, 20};
    int64_t all[20], point[20];
    pthread_t thread;
    AGREE(ivl_solver_new_i64(&solver), 0);
    AGREE(ivl_solver_variables_i64(solver, 20, &numbers, 1), 0);
    for (int64_t i = 0; i < 20; i++)
        all[i] = i;
    AGREE(ivl_solver_all_different_i64(solver, all, 20), 0);
    AGREE(pthread_create(&thread, NULL, count_all, solver), 0);
    AGREE(ivl_solver_first_i64(solver, NULL, point, 20), 1);
    AGREE(ivl_solver_stop_i64(solver, true), 0);
    pthread_join(thread, NULL);
    AGREE(told == IVL_STOPPED && counted == 7, 1);
    AGREE(ivl_solver_stop_i64(solver, false), 0);
    AGREE(ivl_solver_first_i64(solver, NULL, point, 20), 1);
    ivl_solver_free_i64(solver);
}

int main(int count, char **words) {
    unsigned long rounds = rounds_of(count, words);
    misuse_i64(INT64_MIN, -INT64_MAX, INT64_MAX);
    misuse_u64(UINT64_MAX, 0, UINT64_MAX - 1);
    stops();
    for (unsigned long i = 0; i < rounds; i++) {
        /* at the ends no sums, and at that of u64 no tasks, for their distances do not fit */
        round_i64(-INT64_MAX, 5, 0);
        round_i64(-2, 6, -2);
        round_i64(-9, 6, -9);
        round_i64(INT64_MAX - 4, 5, 0);
        round_u64(0, 6, 0);
        round_u64(UINT64_MAX - 5, 4, 0);
    }
    printf("%llu calls of models agree with all points\n", calls);
    return 0;
}
