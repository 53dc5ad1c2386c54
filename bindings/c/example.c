/* The calls from C; the same file is compiled as C++. Answers 0 where each answer is the right one. */
#include "intervallum.h"

#include <inttypes.h>
#include <stdio.h>

static int failures = 0;

static void expect(int is_so, const char *what) {
    if (!is_so) {
        printf("failed: %s\n", what);
        failures++;
    }
}

static void print(const ivl_pair_i64 *runs, int64_t count) {
    for (int64_t i = 0; i < count; i++)
        printf("[%" PRId64 "..%" PRId64 "]", runs[i].lower, runs[i].upper);
    printf("\n");
}

static void signed_numbers(void) {
    /* Out of order, and with a crossed pair, which has no member. */
    const ivl_pair_i64 a[] = {{6, 10}, {1, 2}, {9, 4}};
    const ivl_pair_i64 b[] = {{3, 5}, {7, 7}};
    const ivl_pair_i64 low[] = {{INT64_MIN, 0}};
    const ivl_pair_i64 all[] = {{-INT64_MAX, INT64_MAX}};
    ivl_pair_i64 out[4] = {{0, 0}, {77, 77}, {0, 0}, {0, 0}};
    uint64_t size = 5;

    expect(ivl_union_i64(a, 3, b, 2, out, 4) == 1, "the union is one run");
    expect(out[0].lower == 1 && out[0].upper == 10, "from 1 to 10");
    expect(out[1].lower == 77, "the places after it stay");
    int64_t count = ivl_difference_i64(a, 3, b, 2, out, 4);
    expect(count == 3, "the difference has three runs");
    print(out, count);

    out[0].lower = 55;
    expect(ivl_difference_i64(a, 3, b, 2, out, 2) == 3, "what has no room is told");
    expect(out[0].lower == 55, "and not written");
    expect(ivl_union_i64(low, 1, b, 2, out, 4) == IVL_OUT_OF_RANGE, "the least value is outside");
    expect(out[0].lower == 55, "nothing is written with a code");

    expect(ivl_size_i64(a, 3, &size) == 0 && size == 7, "seven members");
    expect(ivl_size_i64(low, 1, &size) == IVL_OUT_OF_RANGE && size == 7, "the size stays");
    expect(ivl_complement_i64(a, 0, out, 4) == 1, "all of the range");
    expect(out[0].lower == -INT64_MAX && out[0].upper == INT64_MAX, "from end to end");
    expect(ivl_size_i64(out, 1, &size) == 0 && size == UINT64_MAX, "which has that many members");
    expect(ivl_contains_i64(a, 3, 2) && !ivl_contains_i64(a, 3, 5), "2 is a member and 5 is not");
    int64_t next = 55;
    expect(ivl_next_from_i64(a, 3, 3, &next) && next == 6, "the member after 3 is 6");
    expect(!ivl_next_from_i64(a, 3, 11, &next) && next == 6, "none is above 10");
    expect(ivl_contains_sorted_i64(b, 2, 7) && !ivl_contains_sorted_i64(b, 2, 6), "7 is a member and 6 is not");
    expect(ivl_next_from_sorted_i64(b, 2, 6, &next) && next == 7, "the member after 6 is 7");
    expect(!ivl_next_from_sorted_i64(b, 2, 8, &next) && next == 7, "none is above 7");
    expect(ivl_previous_to_sorted_i64(b, 2, 6, &next) && next == 5, "the member before 6 is 5");
    expect(!ivl_previous_to_sorted_i64(b, 2, 2, &next) && next == 5, "none is below 3");
    expect(ivl_run_at_sorted_i64(b, 2, 4, out) && out[0].lower == 3 && out[0].upper == 5, "the run that holds 4");
    expect(!ivl_run_at_sorted_i64(b, 2, 6, out) && out[0].lower == 3, "none holds 6");
    expect(ivl_first_fit_i64(a, 3, 3, out) == 1 && out[0].lower == 6 && out[0].upper == 8, "three in a row");
    expect(ivl_first_fit_i64(a, 3, 6, out) == 0 && ivl_first_fit_i64(a, 3, 0, out) == 0, "no six in a row");
    expect(ivl_rank_i64(a, 3, 8, &size) == 0 && size == 4 && ivl_rank_i64(a, 3, INT64_MIN, &size) == 0 && size == 0, "four below 8");
    expect(ivl_nth_i64(a, 3, 2, &next) == 1 && next == 6 && ivl_nth_i64(a, 3, 7, &next) == 0 && next == 6, "two below 6");
    expect(ivl_rank_i64(low, 1, 8, &size) == IVL_OUT_OF_RANGE && size == 0, "the least value is outside");
    expect(ivl_nth_i64(low, 1, 0, &next) == IVL_OUT_OF_RANGE && next == 6, "and nothing is written");
    expect(ivl_products_i64(a, 3, b, 2, out, 4) == 2 && out[0].upper == 14 && out[1].lower == 18, "products");
    expect(ivl_products_i64(a, 3, all, 1, out, 4) == IVL_PRODUCT_OUT_OF_RANGE, "a product is outside");
    expect(out[0].upper == 14, "nothing is written with it");
    expect(ivl_overlap_i64(a, 3, b, 2) == 1 && ivl_is_subset_i64(b, 2, a, 3) == 0, "they overlap");
}

/* A sum outside the range has a code, or is left out where that is asked for. */
static void sums(void) {
    const ivl_pair_i64 a[] = {{5, 6}, {1, 1}, {9, 4}}, high[] = {{INT64_MAX - 5, INT64_MAX - 5}}, bad[] = {{INT64_MIN, 0}};
    const ivl_pair_u64 small[] = {{3, 5}}, four[] = {{4, 4}};
    ivl_pair_i64 out[4] = {{77, 0}};
    ivl_pair_u64 numbers[2];

    expect(ivl_sums_i64(a, 3, high, 1, out, 4) == IVL_SUM_OUT_OF_RANGE && out[0].lower == 77, "a sum is outside, and nothing is written");
    expect(ivl_sums_i64(a, 3, bad, 1, out, 4) == IVL_OUT_OF_RANGE, "so is a member");
    expect(ivl_sums_within_i64(a, 3, high, 1, out, 4) == 2 && out[1].upper == INT64_MAX, "the other sums");
    expect(ivl_differences_i64(high, 1, a, 3, out, 4) == 2 && ivl_sums_i64(a, 3, NULL, 0, out, 4) == 0, "these fit");
    expect(ivl_differences_u64(small, 1, four, 1, numbers, 2) == IVL_SUM_OUT_OF_RANGE, "-1 is outside");
    expect(ivl_differences_within_u64(small, 1, four, 1, numbers, 2) == 1 && numbers[0].upper == 1, "0 and 1 are left");
}

/* Edits of a list in its own buffer. */
static void edits(void) {
    ivl_pair_i64 runs[3] = {{1, 2}, {8, 9}, {77, 77}};
    ivl_pair_u64 ports[2] = {{5, 9}, {8, 12}};

    expect(ivl_insert_i64(runs, 3, 2, 3, 5) == 2 && runs[0].upper == 5 && runs[1].lower == 8, "the first run is longer");
    expect(runs[2].lower == 77, "the places after the runs stay");
    expect(ivl_remove_i64(runs, 3, 2, 4, 4) == 3 && runs[0].upper == 3 && runs[1].lower == 5, "a run is split");
    expect(ivl_remove_i64(runs, 3, 3, 2, 2) == 4 && runs[0].upper == 3, "what has no room is told, and not written");
    expect(ivl_insert_i64(runs, 3, 3, INT64_MIN, 0) == IVL_OUT_OF_RANGE && runs[0].lower == 1, "the least value is outside");
    expect(ivl_remove_i64(runs, 3, 3, INT64_MIN, 0) == IVL_OUT_OF_RANGE, "when it is removed, too");
    expect(ivl_insert_i64(runs, 3, 3, 7, 6) == 3 && ivl_remove_i64(runs, 3, 3, 9, 1) == 3, "a crossed pair has no number");
    expect(ivl_insert_i64(runs, 3, 9, 4, 7) == 1 && runs[0].lower == 1 && runs[0].upper == 9, "all pairs of the buffer");
    expect(ivl_insert_i64(NULL, 0, 0, 1, 2) == 1 && ivl_remove_i64(NULL, 0, 0, 1, 2) == 0, "no buffer has no room");
    expect(ivl_insert_u64(ports, 2, 2, 20, 20) == 2 && ports[0].upper == 12 && ports[1].lower == 20, "pairs that overlap are joined");
    expect(ivl_remove_u64(ports, 2, 2, 0, UINT64_MAX - 1) == 0, "all are removed");
}

static void unsigned_numbers(void) {
    const ivl_pair_u64 a[] = {{5, 9}, {8, 12}};
    const ivl_pair_u64 all[] = {{0, UINT64_MAX - 1}};
    const ivl_pair_u64 high[] = {{0, UINT64_MAX}};
    const ivl_pair_u64 crossed[] = {{UINT64_MAX, 3}};
    ivl_pair_u64 out[2];

    expect(ivl_normalize_u64(a, 2, out, 2) == 1, "one run");
    expect(out[0].lower == 5 && out[0].upper == 12, "from 5 to 12");
    expect(ivl_equal_u64(a, 2, out, 1) == 1, "with the same members");
    expect(ivl_complement_u64(all, 1, out, 2) == 0, "nothing is left of the range");
    expect(ivl_normalize_u64(high, 1, out, 2) == IVL_OUT_OF_RANGE, "the greatest value is outside");
    expect(ivl_normalize_u64(crossed, 1, out, 2) == 0, "a crossed pair has no member");
    expect(ivl_symmetric_difference_u64(a, 2, all, 1, out, 2) == 2, "two runs beside it");
    expect(ivl_intersection_u64(a, 2, all, 1, out, 2) == 1, "all of it");

    uint64_t next = 0;
    expect(ivl_rank_u64(a, 2, UINT64_MAX, &next) == 0 && next == 8, "eight members");
    expect(ivl_nth_u64(all, 1, UINT64_MAX - 1, &next) == 1 && next == UINT64_MAX - 1, "the last one by its place");
    expect(ivl_next_from_u64(all, 1, UINT64_MAX - 1, &next) && next == UINT64_MAX - 1, "the last one");
    expect(!ivl_next_from_u64(all, 1, UINT64_MAX, &next), "none after it");
    expect(ivl_contains_sorted_u64(a, 2, 12) && !ivl_contains_sorted_u64(all, 1, UINT64_MAX), "12 is a member");
    expect(ivl_next_from_sorted_u64(a, 2, 0, &next) && next == 5, "the least member is 5");
    expect(ivl_previous_to_sorted_u64(a, 2, UINT64_MAX, &next) && next == 12, "the greatest member is 12");
    expect(ivl_run_at_sorted_u64(all, 1, 0, out) && out[0].upper == UINT64_MAX - 1, "the run that holds 0");
    expect(ivl_first_fit_u64(a, 2, 8, out) == 1 && out[0].upper == 12, "eight in a row");
    expect(ivl_products_u64(a, 2, a, 2, out, 2) == 1 && out[0].lower == 25 && out[0].upper == 144, "squares");
    expect(ivl_products_u64(a, 2, all, 1, out, 2) == IVL_PRODUCT_OUT_OF_RANGE, "a product is outside");
}

/* A pointer with a count may be null if the count is 0. */
static void null_pointers(void) {
    const ivl_pair_i64 a[] = {{6, 10}};
    ivl_pair_i64 out[1] = {{0, 0}};
    int64_t found = 5;

    expect(ivl_union_i64(NULL, 0, a, 1, out, 1) == 1 && out[0].lower == 6, "a list of no pairs may have no address");
    expect(ivl_union_i64(a, 1, NULL, 0, NULL, 0) == 1, "nor a buffer with no room");
    expect(ivl_normalize_u64(NULL, 0, NULL, 0) == 0 && ivl_equal_u64(NULL, 0, NULL, 0) == 1, "nothing at all");
    expect(ivl_complement_i64(NULL, 0, NULL, 0) == 1 && !ivl_contains_i64(NULL, 0, 6), "6 is no member");
    expect(!ivl_next_from_sorted_i64(NULL, 0, 6, &found) && found == 5, "none is above 6");
}

#ifdef IVL_CHECKED
static void overlapping_arrays(void) {
    ivl_pair_i64 a[] = {{6, 10}, {1, 2}, {77, 77}};
    ivl_pair_i64 out[2];
    uint64_t sizes[] = {5, 9};

    expect(ivl_union_i64(a, 2, a, 2, a + 1, 2) == IVL_OVERLAP && a[1].lower == 1, "the buffer overlaps a list");
    expect(ivl_union_i64(a, 2, a, 3, a + 2, 1) == IVL_OVERLAP && a[2].lower == 77, "or the other one");
    expect(ivl_normalize_i64(a, 2, a + 2, 1) == 2 && ivl_union_i64(a, 2, a, 2, out, 2) == 2, "the lists may be one");
    expect(ivl_rank_i64(a, 2, 5, (uint64_t *)a) == IVL_OVERLAP && ivl_nth_i64(a, 2, 0, &a[1].upper) == IVL_OVERLAP, "so does a number");
    expect(ivl_first_fit_i64(a, 2, 2, a + 1) == IVL_OVERLAP && ivl_first_fit_i64(a, 2, 2, a + 2) == 1, "so does a run");
    expect(ivl_size_u64((const ivl_pair_u64 *)sizes, 1, sizes + 1) == IVL_OVERLAP && sizes[1] == 9, "so does the size");
}
#endif

int main(void) {
    signed_numbers();
    sums();
    edits();
    unsigned_numbers();
    null_pointers();
#ifdef IVL_CHECKED
    overlapping_arrays();
#endif
    printf("%d failed\n", failures);
    return failures != 0;
}
