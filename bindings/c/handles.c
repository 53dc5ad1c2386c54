/* Sets and maps behind handles beside a model: flags of 64 consecutive numbers, and a value for each, near both ends of each type
   and near zero; and what a null pointer gets. handles [ROUNDS [SEED]]; its last line tells how many calls agreed. */
#include "agree.h"
#include "intervallum_handles.h"

enum { SPAN = 64, VALUES = 3 };

static uint64_t mask(unsigned lower, unsigned upper) {
    return lower > upper ? 0 : UINT64_MAX >> (63 - (upper - lower)) << lower;
}

static unsigned count_of(uint64_t flags) {
    unsigned count = 0;
    for (; flags; flags &= flags - 1)
        count++;
    return count;
}

/* The first flag from a place on that is as wanted, or SPAN. */
static unsigned next_of(uint64_t flags, unsigned from, int wanted) {
    while (from < SPAN && (int)(flags >> from & 1) != wanted)
        from++;
    return from;
}

/* The lowest run of so many numbers from a place on, or SPAN. */
static unsigned fit_of(uint64_t flags, unsigned from, unsigned count) {
    for (; from + count <= SPAN; from++)
        if (count > 0 && (flags & mask(from, from + count - 1)) == mask(from, from + count - 1))
            return from;
    return SPAN;
}

static unsigned last_of(uint64_t flags) {
    unsigned at = SPAN;
    while (at > 0 && !(flags >> (at - 1) & 1))
        at--;
    return at - 1; /* of no flag, a great number */
}

#define OF_TYPE(T, NUMBER, LOW, HIGH)                                                                                         \
    static NUMBER base_##T;                                                                                                   \
    static NUMBER at_##T(unsigned place) { return (NUMBER)(base_##T + (NUMBER)place); }                                       \
                                                                                                                              \
    /* The runs, one after another, and as a list. */                                                                         \
    static void same_##T(const ivl_set_##T *set, uint64_t flags) {                                                            \
        ivl_pair_##T run, out[SPAN];                                                                                          \
        uint64_t size = 99;                                                                                                   \
        int64_t count = ivl_set_runs_##T(set, out, SPAN), seen = 0;                                                           \
        for (unsigned from = next_of(flags, 0, 1); from < SPAN; seen++) {                                                     \
            unsigned past = next_of(flags, from, 0);                                                                          \
            AGREE(ivl_set_run_from_##T(set, at_##T(from), &run), 1);                                                          \
            AGREE(run.lower == at_##T(from) && run.upper == at_##T(past - 1), 1);                                             \
            AGREE(seen < count && out[seen].lower == run.lower && out[seen].upper == run.upper, 1);                           \
            from = next_of(flags, past, 1);                                                                                   \
        }                                                                                                                     \
        AGREE(count, seen);                                                                                                   \
        AGREE(ivl_set_size_##T(set, &size) == 0 && size == count_of(flags), 1);                                               \
        AGREE(ivl_set_run_count_##T(set, &size) == 0 && size == (uint64_t)count, 1);                                          \
        AGREE(ivl_set_is_empty_##T(set), flags == 0);                                                                         \
    }                                                                                                                         \
                                                                                                                              \
    static void edits_##T(ivl_set_##T *set, uint64_t *flags) {                                                                \
        unsigned lower = draw(SPAN), upper = draw(SPAN), form = draw(8);                                                      \
        uint64_t of_run = mask(lower, upper), one = (uint64_t)1 << lower;                                                     \
        if (form < 2) {                                                                                                       \
            AGREE(ivl_set_insert_##T(set, at_##T(lower)), !(*flags & one));                                                   \
            *flags |= one;                                                                                                    \
        } else if (form < 4) {                                                                                                \
            AGREE(ivl_set_remove_##T(set, at_##T(lower)), !!(*flags & one));                                                  \
            *flags &= ~one;                                                                                                   \
        } else if (form < 6) {                                                                                                \
            AGREE(ivl_set_insert_run_##T(set, at_##T(lower), at_##T(upper)), (*flags & of_run) != of_run);                    \
            *flags |= of_run;                                                                                                 \
        } else {                                                                                                              \
            AGREE(ivl_set_remove_run_##T(set, at_##T(lower), at_##T(upper)), !!(*flags & of_run));                            \
            *flags &= ~of_run;                                                                                                \
        }                                                                                                                     \
    }                                                                                                                         \
                                                                                                                              \
    static void takes_##T(ivl_set_##T *set, uint64_t *flags) {                                                                \
        NUMBER found = 5;                                                                                                     \
        ivl_pair_##T run = {5, 5};                                                                                            \
        unsigned count = draw(6), first = next_of(*flags, 0, 1), last = last_of(*flags), fit = fit_of(*flags, 0, count);      \
        AGREE(ivl_set_first_##T(set, &found) == (*flags != 0) && (!*flags || found == at_##T(first)), 1);                     \
        AGREE(ivl_set_last_##T(set, &found) == (*flags != 0) && (!*flags || found == at_##T(last)), 1);                       \
        switch (draw(3)) {                                                                                                    \
        case 0:                                                                                                               \
            AGREE(ivl_set_pop_first_##T(set, &found) == (*flags != 0) && (!*flags || found == at_##T(first)), 1);             \
            *flags &= *flags - 1;                                                                                             \
            break;                                                                                                            \
        case 1:                                                                                                               \
            AGREE(ivl_set_pop_last_##T(set, &found) == (*flags != 0) && (!*flags || found == at_##T(last)), 1);               \
            *flags &= *flags ? ~((uint64_t)1 << last) : 0;                                                                    \
            break;                                                                                                            \
        default:                                                                                                              \
            AGREE(ivl_set_take_first_fit_##T(set, count, &run), fit < SPAN);                                                  \
            AGREE(fit == SPAN || (run.lower == at_##T(fit) && run.upper == at_##T(fit + count - 1)), 1);                      \
            *flags &= fit < SPAN ? ~mask(fit, fit + count - 1) : *flags;                                                      \
        }                                                                                                                     \
    }                                                                                                                         \
                                                                                                                              \
    static void asks_##T(const ivl_set_##T *set, uint64_t flags) {                                                            \
        unsigned v = draw(SPAN), upper = draw(SPAN), count = draw(7), next = next_of(flags, v, 1), past = next_of(flags, v, 0); \
        uint64_t below = flags & (((uint64_t)1 << v) - 1), upto = below | (flags & (uint64_t)1 << v), of_run = mask(v, upper), size = 99; \
        NUMBER found = 5;                                                                                                     \
        ivl_pair_##T run = {5, 5};                                                                                            \
        AGREE(ivl_set_contains_##T(set, at_##T(v)), (int)(flags >> v & 1));                                                   \
        AGREE(ivl_set_includes_##T(set, at_##T(v), at_##T(upper)), (flags & of_run) == of_run);                               \
        AGREE(ivl_set_overlaps_##T(set, at_##T(v), at_##T(upper)), !!(flags & of_run));                                       \
        AGREE(ivl_set_size_within_##T(set, at_##T(v), at_##T(upper), &size) == 0 && size == count_of(flags & of_run), 1);     \
        AGREE(ivl_set_rank_##T(set, at_##T(v), &size) == 0 && size == count_of(below), 1);                                    \
        AGREE(ivl_set_nth_##T(set, size, &found) == (next < SPAN) && (next == SPAN || found == at_##T(next)), 1);             \
        AGREE(ivl_set_next_from_##T(set, at_##T(v), &found) == (next < SPAN) && (next == SPAN || found == at_##T(next)), 1);  \
        AGREE(ivl_set_previous_to_##T(set, at_##T(v), &found) == (upto != 0) && (!upto || found == at_##T(last_of(upto))), 1); \
        AGREE(ivl_set_run_at_##T(set, at_##T(v), &run) == (next == v) && (next != v || run.upper == at_##T(past - 1)), 1);    \
        unsigned fit = fit_of(flags, 0, count), from = fit_of(flags, v, count);                                               \
        AGREE(ivl_set_first_fit_##T(set, count, &run) == (fit < SPAN) && (fit == SPAN || run.lower == at_##T(fit)), 1);       \
        AGREE(ivl_set_first_fit_from_##T(set, at_##T(v), count, &run) == (from < SPAN) && (from == SPAN || run.lower == at_##T(from)), 1); \
        AGREE(ivl_set_best_fit_##T(set, count, &run) == (fit < SPAN), 1);                                                     \
        AGREE(ivl_set_longest_run_##T(set, &run), flags != 0);                                                                \
    }                                                                                                                         \
                                                                                                                              \
    typedef int64_t making_##T(const ivl_set_##T *, const ivl_set_##T *, ivl_set_##T **);                                     \
    static void made_##T(making_##T *make, const ivl_set_##T *a, const ivl_set_##T *b, uint64_t flags) {                      \
        ivl_set_##T *made = NULL;                                                                                             \
        AGREE(make(a, b, &made), 0);                                                                                          \
        same_##T(made, flags);                                                                                                \
        ivl_set_free_##T(made);                                                                                               \
    }                                                                                                                         \
                                                                                                                              \
    static void merges_##T(ivl_set_##T *a, ivl_set_##T *b, uint64_t *x, uint64_t y) {                                         \
        unsigned lower = draw(SPAN), upper = draw(SPAN);                                                                      \
        ivl_set_##T *made = NULL, *back = NULL;                                                                               \
        made_##T(ivl_set_union_##T, a, b, *x | y);                                                                            \
        made_##T(ivl_set_intersection_##T, a, b, *x & y);                                                                     \
        made_##T(ivl_set_difference_##T, a, b, *x & ~y);                                                                      \
        made_##T(ivl_set_symmetric_difference_##T, a, b, *x ^ y);                                                             \
        AGREE(ivl_set_is_subset_##T(a, b), !(*x & ~y));                                                                       \
        AGREE(ivl_set_overlap_##T(a, b), !!(*x & y));                                                                         \
        AGREE(ivl_set_equal_##T(a, b), *x == y);                                                                              \
        AGREE(ivl_set_gaps_within_##T(a, at_##T(lower), at_##T(upper), &made), 0);                                            \
        same_##T(made, mask(lower, upper) & ~*x);                                                                             \
        ivl_set_free_##T(made);                                                                                               \
        AGREE(ivl_set_complement_##T(a, &made) == 0 && ivl_set_complement_##T(made, &back) == 0, 1);                          \
        AGREE(ivl_set_overlap_##T(a, made), 0);                                                                               \
        same_##T(back, *x);                                                                                                   \
        ivl_set_free_##T(made);                                                                                               \
        ivl_set_free_##T(back);                                                                                               \
        ivl_set_##T *other = draw(8) ? b : a; /* or itself */                                                                 \
        uint64_t z = other == a ? *x : y;                                                                                     \
        switch (draw(4)) {                                                                                                    \
        case 0:                                                                                                               \
            AGREE(ivl_set_unite_##T(a, other), 0);                                                                            \
            *x |= z;                                                                                                          \
            break;                                                                                                            \
        case 1:                                                                                                               \
            AGREE(ivl_set_intersect_##T(a, other), 0);                                                                        \
            *x &= z;                                                                                                          \
            break;                                                                                                            \
        case 2:                                                                                                               \
            AGREE(ivl_set_subtract_##T(a, other), 0);                                                                         \
            *x &= ~z;                                                                                                         \
            break;                                                                                                            \
        default:                                                                                                              \
            AGREE(ivl_set_split_off_##T(a, at_##T(lower), &made), 0);                                                         \
            same_##T(made, *x & mask(lower, SPAN - 1));                                                                       \
            *x &= ~mask(lower, SPAN - 1);                                                                                     \
            ivl_set_free_##T(made);                                                                                           \
        }                                                                                                                     \
        same_##T(a, *x);                                                                                                      \
    }                                                                                                                         \
                                                                                                                              \
    static void map_##T(ivl_map_##T *map, unsigned *values) {                                                                 \
        unsigned lower = draw(SPAN), upper = draw(SPAN), value = 1 + draw(VALUES), v = draw(SPAN), has = 0, entries = 0, size = 0; \
        uint64_t found = 77, with = 0, all = 0;                                                                               \
        ivl_entry_##T entry = {0, 0, 0};                                                                                      \
        ivl_pair_##T run;                                                                                                     \
        ivl_set_##T *set = NULL;                                                                                              \
        ivl_map_##T *part = NULL;                                                                                             \
        for (unsigned i = lower; i <= upper; i++)                                                                             \
            has |= values[i];                                                                                                 \
        unsigned form = draw(3), is_free = form == 2 && !has;                                                                 \
        if (form == 0)                                                                                                        \
            AGREE(ivl_map_insert_##T(map, at_##T(lower), at_##T(upper), value), 0);                                           \
        else if (form == 1)                                                                                                   \
            AGREE(ivl_map_remove_##T(map, at_##T(lower), at_##T(upper)), 0);                                                  \
        else                                                                                                                  \
            AGREE(ivl_map_insert_if_free_##T(map, at_##T(lower), at_##T(upper), value), !has);                                \
        for (unsigned i = lower; i <= upper; i++)                                                                             \
            values[i] = form == 0 || is_free ? value : form == 1 ? 0 : values[i];                                             \
        for (unsigned i = 0; i < SPAN; i++) {                                                                                 \
            size += values[i] != 0;                                                                                           \
            entries += values[i] && (i == 0 || values[i] != values[i - 1]);                                                   \
            with |= (uint64_t)(values[i] == value) << i;                                                                      \
            all |= (uint64_t)(values[i] != 0) << i;                                                                           \
        }                                                                                                                     \
        AGREE(ivl_map_get_##T(map, at_##T(v), &found) == (values[v] != 0) && found == (values[v] ? values[v] : 77), 1);       \
        AGREE(ivl_map_contains_##T(map, at_##T(v)), values[v] != 0);                                                          \
        AGREE(ivl_map_size_##T(map, &found) == 0 && found == size, 1);                                                        \
        AGREE(ivl_map_entry_count_##T(map, &found) == 0 && found == entries, 1);                                              \
        AGREE(ivl_map_is_empty_##T(map), size == 0);                                                                          \
        for (unsigned from = next_of(all, 0, 1); from < SPAN; from = next_of(all, from, 1)) {                                 \
            unsigned past = from;                                                                                             \
            while (past < SPAN && values[past] == values[from])                                                               \
                past++;                                                                                                       \
            AGREE(ivl_map_next_from_##T(map, at_##T(from), &entry) == 1 && entry.value == values[from], 1);                   \
            AGREE(entry.lower == at_##T(from) && entry.upper == at_##T(past - 1), 1);                                         \
            AGREE(ivl_map_entry_at_##T(map, at_##T(past - 1), &entry) == 1 && entry.lower == at_##T(from), 1);                \
            from = past;                                                                                                      \
        }                                                                                                                     \
        AGREE(ivl_map_last_##T(map, &entry) == (all != 0) && (!all || entry.upper == at_##T(last_of(all))), 1);               \
        unsigned fit = fit_of(~all, 0, 3);                                                                                    \
        AGREE(ivl_map_first_fit_##T(map, at_##T(0), at_##T(SPAN - 1), 3, &run) == (fit < SPAN) && (fit == SPAN || run.lower == at_##T(fit)), 1); \
        AGREE(ivl_map_keys_##T(map, &set), 0);                                                                                \
        same_##T(set, all);                                                                                                   \
        ivl_set_free_##T(set);                                                                                                \
        AGREE(ivl_map_numbers_with_##T(map, value, &set), 0);                                                                 \
        same_##T(set, with);                                                                                                  \
        ivl_set_free_##T(set);                                                                                                \
        AGREE(ivl_map_gaps_within_##T(map, at_##T(lower), at_##T(upper), &set), 0);                                           \
        same_##T(set, mask(lower, upper) & ~all);                                                                             \
        ivl_set_free_##T(set);                                                                                                \
        AGREE(ivl_map_cut_to_##T(map, at_##T(lower), at_##T(upper), &part), 0);                                               \
        AGREE(ivl_map_size_##T(part, &found) == 0 && found == count_of(all & mask(lower, upper)), 1);                         \
        ivl_map_free_##T(part);                                                                                               \
        AGREE(ivl_map_clone_##T(map, &part) == 0 && ivl_map_equal_##T(map, part) == 1, 1);                                    \
        ivl_map_free_##T(part);                                                                                               \
    }                                                                                                                         \
                                                                                                                              \
    static void round_##T(NUMBER low) {                                                                                       \
        ivl_set_##T *a = NULL, *b = NULL;                                                                                     \
        ivl_map_##T *map = NULL;                                                                                              \
        uint64_t x = 0, y = 0;                                                                                                \
        unsigned values[SPAN] = {0};                                                                                          \
        base_##T = low;                                                                                                       \
        const ivl_pair_##T pairs[] = {{at_##T(40), at_##T(50)}, {at_##T(1), at_##T(7)}, {at_##T(9), at_##T(2)}};              \
        AGREE(ivl_set_new_##T(&a) == 0 && ivl_set_of_##T(pairs, 3, &b) == 0 && ivl_map_new_##T(&map) == 0, 1);                \
        y = mask(40, 50) | mask(1, 7);                                                                                        \
        for (unsigned i = 0; i < 20; i++) {                                                                                   \
            edits_##T(a, &x);                                                                                                 \
            edits_##T(b, &y);                                                                                                 \
            asks_##T(a, x);                                                                                                   \
            merges_##T(a, b, &x, y);                                                                                          \
            takes_##T(b, &y);                                                                                                 \
            map_##T(map, values);                                                                                             \
        }                                                                                                                     \
        same_##T(b, y);                                                                                                       \
        AGREE(ivl_set_clear_##T(a) == 0 && ivl_set_is_empty_##T(a) == 1 && ivl_map_clear_##T(map) == 0, 1);                   \
        ivl_set_free_##T(a);                                                                                                  \
        ivl_set_free_##T(b);                                                                                                  \
        ivl_map_free_##T(map);                                                                                                \
    }                                                                                                                         \
                                                                                                                              \
    /* A code, and nothing is changed. */                                                                                     \
    static void misuse_##T(void) {                                                                                            \
        const ivl_pair_##T outside[] = {{0, 5}, {LOW, HIGH}};                                                                 \
        ivl_set_##T *set = NULL, *other = NULL;                                                                               \
        ivl_map_##T *map = NULL;                                                                                              \
        uint64_t size = 77;                                                                                                   \
        NUMBER bad = (LOW) != 0 ? LOW : HIGH;                                                                                 \
        base_##T = 5;                                                                                                         \
        ivl_set_free_##T(NULL);                                                                                               \
        ivl_map_free_##T(NULL);                                                                                               \
        AGREE(ivl_set_new_##T(NULL), IVL_NULL);                                                                               \
        AGREE(ivl_set_of_##T(outside, 2, &set) == IVL_OUT_OF_RANGE && !set, 1);                                               \
        AGREE(ivl_set_of_##T(NULL, 2, &set), IVL_NULL);                                                                       \
        AGREE(ivl_set_of_##T(NULL, 0, &set), 0);                                                                              \
        AGREE(ivl_set_insert_##T(NULL, 5), IVL_NULL);                                                                         \
        AGREE(ivl_set_insert_##T(set, bad), IVL_OUT_OF_RANGE);                                                                \
        AGREE(ivl_set_insert_run_##T(set, LOW, HIGH), IVL_OUT_OF_RANGE);                                                      \
        AGREE(ivl_set_is_empty_##T(set), 1);                                                                                  \
        AGREE(ivl_set_insert_##T(set, 5), 1);                                                                                 \
        AGREE(ivl_set_pop_first_##T(set, NULL), IVL_NULL);                                                                    \
        AGREE(ivl_set_split_off_##T(set, 0, NULL), IVL_NULL);                                                                 \
        AGREE(ivl_set_union_##T(set, NULL, &other), IVL_NULL);                                                                \
        AGREE(ivl_set_union_##T(NULL, set, &other), IVL_NULL);                                                                \
        AGREE(ivl_set_unite_##T(set, NULL), IVL_NULL);                                                                        \
        AGREE(ivl_set_runs_##T(set, NULL, 3), IVL_NULL);                                                                      \
        AGREE(ivl_set_runs_##T(set, NULL, 0), 1);                                                                             \
        AGREE(ivl_set_size_##T(NULL, &size) == IVL_NULL && size == 77, 1);                                                    \
        AGREE(ivl_set_contains_##T(set, bad), 0);                                                                             \
        AGREE(ivl_set_remove_##T(set, bad), 0);                                                                               \
        AGREE(ivl_set_remove_run_##T(set, LOW, HIGH), 1);                                                                     \
        AGREE(ivl_map_new_##T(&map), 0);                                                                                      \
        AGREE(ivl_map_insert_##T(map, LOW, HIGH, 3), IVL_OUT_OF_RANGE);                                                       \
        AGREE(ivl_map_insert_##T(NULL, 1, 2, 3), IVL_NULL);                                                                   \
        AGREE(ivl_map_get_##T(map, 1, NULL), IVL_NULL);                                                                       \
        AGREE(ivl_map_keys_##T(map, NULL), IVL_NULL);                                                                         \
        AGREE(ivl_map_is_empty_##T(map), 1);                                                                                  \
        AGREE(other == NULL, 1);                                                                                              \
        ivl_set_free_##T(set);                                                                                                \
        ivl_map_free_##T(map);                                                                                                \
    }
OF_TYPE(i64, int64_t, INT64_MIN, INT64_MAX)
OF_TYPE(u64, uint64_t, 0, UINT64_MAX)

int main(int count, char **words) {
    unsigned long rounds = rounds_of(count, words);
    misuse_i64();
    misuse_u64();
    for (unsigned long i = 0; i < rounds; i++) {
        round_i64(-INT64_MAX);
        round_i64(-32);
        round_i64(INT64_MAX - 63);
        round_u64(0);
        round_u64(UINT64_MAX - 64);
    }
    printf("%llu calls of handles agree with flags\n", calls);
    return 0;
}
