/* Written by bindings/calls from intervallum.h.in and crates/ivl_c/src/signed.rt. */
/* Sets of whole numbers as lists of runs. The answer of each call is proved.

   A list of pairs may be in any order and overlap. It stands for the set of the numbers in some pair; a crossed
   pair has none.

   A call that makes a set returns the number of runs of the set. If `room` is at least that, the runs are
   written to `out`, ascending, with at least one number missing between neighbours, and the rest of `out` is
   unchanged. Otherwise nothing is written, and the call can be repeated with more room. A negative result is an
   error code; then nothing was written.

   The caller must ensure that each pointer is valid for its count, and that `out`, `size` and `found` overlap no
   input. A pointer with a count may be null if the count is 0. There is no condition on values. Do not call from a
   signal handler, or from the forked child of a process with threads.

   With IVL_CHECKED defined before this header is included, each call that returns a code compares the addresses
   first: it returns IVL_OVERLAP, and writes nothing, if what it would write overlaps an input. A call by a pointer to
   a function compares nothing. */
#ifndef INTERVALLUM_H
#define INTERVALLUM_H

#include <stdbool.h>
#include <stddef.h>
#include <stdint.h>

/* The version of this header, as a text and as numbers: 20000 is 2.0.0. */
#define IVL_VERSION "2.0.0"
#define IVL_VERSION_MAJOR 2
#define IVL_VERSION_MINOR 0
#define IVL_VERSION_PATCH 0
#define IVL_VERSION_NUMBER (10000 * IVL_VERSION_MAJOR + 100 * IVL_VERSION_MINOR + IVL_VERSION_PATCH)

#ifdef __cplusplus
extern "C" {
#endif

/* Some member of a list is outside the range. */
#define IVL_OUT_OF_RANGE (-1)
/* An allocation failed. */
#define IVL_OUT_OF_MEMORY (-2)
/* Some product is outside the range. */
#define IVL_PRODUCT_OUT_OF_RANGE (-3)
/* What a call would write overlaps an input. Returned only with IVL_CHECKED. */
#define IVL_OVERLAP (-4)
/* Some sum or difference is outside the range. */
#define IVL_SUM_OUT_OF_RANGE (-5)
/* A null pointer where there has to be one that is not. Returned only by the calls of intervallum_handles.h. */
#define IVL_NULL (-6)
/* A fault of the library. Returned only by these, and not known to happen. */
#define IVL_FAULT (-7)
/* A limit ended a search before it found a solution, or all of them: there may be more. */
#define IVL_UNFINISHED (-8)
/* A search was told to stop. */
#define IVL_STOPPED (-9)
/* No variable of the model has this index. */
#define IVL_UNKNOWN_VARIABLE (-10)
/* A rule names a variable twice. */
#define IVL_SAME_VARIABLE (-11)

/* The number of the version of the library: compare it with IVL_VERSION_NUMBER. */
int64_t ivl_version(void);

/* What a code means, in words: a text that is not to be freed, for a result that is no code, too. */
static inline const char *ivl_error_text(int64_t code) {
    switch (code) {
    case IVL_OUT_OF_RANGE:
        return "a number is outside the range";
    case IVL_OUT_OF_MEMORY:
        return "an allocation failed";
    case IVL_PRODUCT_OUT_OF_RANGE:
        return "a product is outside the range";
    case IVL_OVERLAP:
        return "what the call would write overlaps an input";
    case IVL_SUM_OUT_OF_RANGE:
        return "a sum or a difference is outside the range";
    case IVL_NULL:
        return "a null pointer";
    case IVL_FAULT:
        return "a fault of the library";
    case IVL_UNFINISHED:
        return "a limit ended the search: there may be more solutions";
    case IVL_STOPPED:
        return "the search was told to stop";
    case IVL_UNKNOWN_VARIABLE:
        return "no variable of the model has this index";
    case IVL_SAME_VARIABLE:
        return "a rule names a variable twice";
    default:
        return code < 0 ? "no code of this library" : "no error";
    }
}

/* Marks what overlaps no other argument, for compilers that warn of it. */
#if !defined(__cplusplus)
#define IVL_RESTRICT restrict
#elif defined(__GNUC__) || defined(_MSC_VER)
#define IVL_RESTRICT __restrict
#else
#define IVL_RESTRICT
#endif

/* ---- int64_t: the members of a set lie from -INT64_MAX to INT64_MAX */

/* The numbers from `lower` to `upper`, bounds included; none if `lower` is above `upper`. */
typedef struct {
    int64_t lower;
    int64_t upper;
} ivl_pair_i64;

/* Make a set of one list. O(n log n).
   normalize: its members; complement: the other numbers of the range, O(n) and without an allocation if the list is
   one of runs, as for union. */
int64_t ivl_normalize_i64(const ivl_pair_i64 *a, size_t n, ivl_pair_i64 *IVL_RESTRICT out, size_t room);
int64_t ivl_complement_i64(const ivl_pair_i64 *a, size_t n, ivl_pair_i64 *IVL_RESTRICT out, size_t room);

/* Make a set of two lists. O(n log n + m log m).
   union: the members of either; intersection: of both; difference: of `a` and not of `b`;
   symmetric_difference: of exactly one.
   They are O(n + m) and do not allocate if both lists are lists of runs: no pair is crossed, the
   pairs ascend with at least one number missing between neighbours, and all are in the range, as in every list
   that a call has written. If `room` is less than n + m, they first count the runs of the answer. */
int64_t ivl_union_i64(const ivl_pair_i64 *a, size_t n, const ivl_pair_i64 *b, size_t m, ivl_pair_i64 *IVL_RESTRICT out, size_t room);
int64_t ivl_intersection_i64(const ivl_pair_i64 *a, size_t n, const ivl_pair_i64 *b, size_t m, ivl_pair_i64 *IVL_RESTRICT out, size_t room);
int64_t ivl_difference_i64(const ivl_pair_i64 *a, size_t n, const ivl_pair_i64 *b, size_t m, ivl_pair_i64 *IVL_RESTRICT out, size_t room);
int64_t ivl_symmetric_difference_i64(const ivl_pair_i64 *a, size_t n, const ivl_pair_i64 *b, size_t m, ivl_pair_i64 *IVL_RESTRICT out, size_t room);

/* Make the set of the sums or differences of a member of `a` and one of `b` that are in the range; the others are left
   out. `ivl_sums_i64` and `ivl_differences_i64`, below, have an error code for them. O(n m log (n m)). */
int64_t ivl_sums_within_i64(const ivl_pair_i64 *a, size_t n, const ivl_pair_i64 *b, size_t m, ivl_pair_i64 *IVL_RESTRICT out, size_t room);
int64_t ivl_differences_within_i64(const ivl_pair_i64 *a, size_t n, const ivl_pair_i64 *b, size_t m, ivl_pair_i64 *IVL_RESTRICT out, size_t room);

/* Makes the set that holds, for each pair of runs, the numbers from their least to their greatest product:
   {[1..2]} times {[10..10]} is {[10..20]}. IVL_PRODUCT_OUT_OF_RANGE if some product is outside the range.
   O(n m log (n m)). */
int64_t ivl_products_i64(const ivl_pair_i64 *a, size_t n, const ivl_pair_i64 *b, size_t m, ivl_pair_i64 *IVL_RESTRICT out, size_t room);

/* Compare two lists: 1 for yes, 0 for no, or an error code. O(n log n + m log m); O(n + m), and without an allocation,
   if both lists are lists of runs, as for union.
   is_subset: each member of `a` is one of `b`; overlap: some number is a member of both;
   equal: the members are the same. */
int64_t ivl_is_subset_i64(const ivl_pair_i64 *a, size_t n, const ivl_pair_i64 *b, size_t m);
int64_t ivl_overlap_i64(const ivl_pair_i64 *a, size_t n, const ivl_pair_i64 *b, size_t m);
int64_t ivl_equal_i64(const ivl_pair_i64 *a, size_t n, const ivl_pair_i64 *b, size_t m);

/* Writes the number of members and returns 0, or returns an error code and writes nothing.
   O(n log n). */
int64_t ivl_size_i64(const ivl_pair_i64 *a, size_t n, uint64_t *IVL_RESTRICT size);

/* Returns true exactly when `v` is a member. The list may be in any order, and `v` may be outside the range.
   O(n), does not allocate, has no error code. */
bool ivl_contains_i64(const ivl_pair_i64 *a, size_t n, int64_t v);

/* The same by binary search, for a sorted list: no pair is crossed, and neither the lower nor the upper bounds
   descend. Every list that a call has written is sorted. For any other list, true still means that `v` is a
   member, and false means nothing. O(log n), does not allocate, has no error code. */
bool ivl_contains_sorted_i64(const ivl_pair_i64 *a, size_t n, int64_t v);

/* Writes the least member that is at least `v` and returns true, or writes nothing and returns false if there is
   none. The list may be in any order, and `v` may be outside the range. O(n), does not allocate, has no error
   code. */
bool ivl_next_from_i64(const ivl_pair_i64 *a, size_t n, int64_t v, int64_t *IVL_RESTRICT found);

/* The same by binary search, for a list that is sorted as for contains_sorted. For any other list, a number that
   is written is still a member that is at least `v`, but perhaps not the least one, and false means only that
   nothing is written. O(log n), does not allocate, has no error code. */
bool ivl_next_from_sorted_i64(const ivl_pair_i64 *a, size_t n, int64_t v, int64_t *IVL_RESTRICT found);

/* Writes the greatest member that is at most `v` and returns true, or writes nothing and returns false if there is
   none. Binary search in a list that is sorted as for contains_sorted; `v` may be outside the range. For any other
   list, a number that is written is still a member that is at most `v`, but perhaps not the greatest one, and false
   means only that nothing is written. O(log n), does not allocate, has no error code. */
bool ivl_previous_to_sorted_i64(const ivl_pair_i64 *a, size_t n, int64_t v, int64_t *IVL_RESTRICT found);

/* Writes the run that holds `v`, the longest interval of members with `v` in it, and returns true, or writes nothing
   and returns false if `v` is no member. Binary search in a list of runs. In a list that is only sorted, the run that
   is written is a pair of the list that holds `v`, and perhaps not the longest; for any other list this holds of a pair
   that is written, and false means only that nothing is written. O(log n), does not allocate, has no error code. */
bool ivl_run_at_sorted_i64(const ivl_pair_i64 *a, size_t n, int64_t v, ivl_pair_i64 *IVL_RESTRICT found);

/* Writes the number of members below `v` and returns 0, or returns an error code and writes nothing. `v` may be outside
   the range. O(n log n). */
int64_t ivl_rank_i64(const ivl_pair_i64 *a, size_t n, int64_t v, uint64_t *IVL_RESTRICT found);

/* Writes the member with exactly `i` members below it and returns 1. Otherwise writes nothing, and returns 0 if there
   are no more than `i` members, or an error code. O(n log n). */
int64_t ivl_nth_i64(const ivl_pair_i64 *a, size_t n, uint64_t i, int64_t *IVL_RESTRICT found);

/* Edit a list in its own buffer, which has room for `room` pairs. The list is the first `n` of them, or all if `n` is
   greater. insert adds the numbers from `lower` to `upper` to its members, remove removes them; if `lower` is above
   `upper` there are none. As a call that makes a set does, they return the number of runs of the result, and write
   these to the start of the buffer if it has room for all. Numbers outside the range are IVL_OUT_OF_RANGE, for remove
   too. O(n log n). */
int64_t ivl_insert_i64(ivl_pair_i64 *runs, size_t room, size_t n, int64_t lower, int64_t upper);
int64_t ivl_remove_i64(ivl_pair_i64 *runs, size_t room, size_t n, int64_t lower, int64_t upper);

/* Writes the lowest `count` consecutive members as one run and returns 1. Otherwise writes nothing, and returns 0
   if there is no such run or `count` is 0, or an error code. O(n log n). */
int64_t ivl_first_fit_i64(const ivl_pair_i64 *a, size_t n, uint64_t count, ivl_pair_i64 *IVL_RESTRICT found);

/* ---- uint64_t: the members of a set lie from 0 to UINT64_MAX - 1 */

/* The numbers from `lower` to `upper`, bounds included; none if `lower` is above `upper`. */
typedef struct {
    uint64_t lower;
    uint64_t upper;
} ivl_pair_u64;

/* Make a set of one list. O(n log n).
   normalize: its members; complement: the other numbers of the range, O(n) and without an allocation if the list is
   one of runs, as for union. */
int64_t ivl_normalize_u64(const ivl_pair_u64 *a, size_t n, ivl_pair_u64 *IVL_RESTRICT out, size_t room);
int64_t ivl_complement_u64(const ivl_pair_u64 *a, size_t n, ivl_pair_u64 *IVL_RESTRICT out, size_t room);

/* Make a set of two lists. O(n log n + m log m).
   union: the members of either; intersection: of both; difference: of `a` and not of `b`;
   symmetric_difference: of exactly one.
   They are O(n + m) and do not allocate if both lists are lists of runs: no pair is crossed, the
   pairs ascend with at least one number missing between neighbours, and all are in the range, as in every list
   that a call has written. If `room` is less than n + m, they first count the runs of the answer. */
int64_t ivl_union_u64(const ivl_pair_u64 *a, size_t n, const ivl_pair_u64 *b, size_t m, ivl_pair_u64 *IVL_RESTRICT out, size_t room);
int64_t ivl_intersection_u64(const ivl_pair_u64 *a, size_t n, const ivl_pair_u64 *b, size_t m, ivl_pair_u64 *IVL_RESTRICT out, size_t room);
int64_t ivl_difference_u64(const ivl_pair_u64 *a, size_t n, const ivl_pair_u64 *b, size_t m, ivl_pair_u64 *IVL_RESTRICT out, size_t room);
int64_t ivl_symmetric_difference_u64(const ivl_pair_u64 *a, size_t n, const ivl_pair_u64 *b, size_t m, ivl_pair_u64 *IVL_RESTRICT out, size_t room);

/* Make the set of the sums or differences of a member of `a` and one of `b` that are in the range; the others are left
   out. `ivl_sums_u64` and `ivl_differences_u64`, below, have an error code for them. O(n m log (n m)). */
int64_t ivl_sums_within_u64(const ivl_pair_u64 *a, size_t n, const ivl_pair_u64 *b, size_t m, ivl_pair_u64 *IVL_RESTRICT out, size_t room);
int64_t ivl_differences_within_u64(const ivl_pair_u64 *a, size_t n, const ivl_pair_u64 *b, size_t m, ivl_pair_u64 *IVL_RESTRICT out, size_t room);

/* Makes the set that holds, for each pair of runs, the numbers from their least to their greatest product:
   {[1..2]} times {[10..10]} is {[10..20]}. IVL_PRODUCT_OUT_OF_RANGE if some product is outside the range.
   O(n m log (n m)). */
int64_t ivl_products_u64(const ivl_pair_u64 *a, size_t n, const ivl_pair_u64 *b, size_t m, ivl_pair_u64 *IVL_RESTRICT out, size_t room);

/* Compare two lists: 1 for yes, 0 for no, or an error code. O(n log n + m log m); O(n + m), and without an allocation,
   if both lists are lists of runs, as for union.
   is_subset: each member of `a` is one of `b`; overlap: some number is a member of both;
   equal: the members are the same. */
int64_t ivl_is_subset_u64(const ivl_pair_u64 *a, size_t n, const ivl_pair_u64 *b, size_t m);
int64_t ivl_overlap_u64(const ivl_pair_u64 *a, size_t n, const ivl_pair_u64 *b, size_t m);
int64_t ivl_equal_u64(const ivl_pair_u64 *a, size_t n, const ivl_pair_u64 *b, size_t m);

/* Writes the number of members and returns 0, or returns an error code and writes nothing.
   O(n log n). */
int64_t ivl_size_u64(const ivl_pair_u64 *a, size_t n, uint64_t *IVL_RESTRICT size);

/* Returns true exactly when `v` is a member. The list may be in any order, and `v` may be outside the range.
   O(n), does not allocate, has no error code. */
bool ivl_contains_u64(const ivl_pair_u64 *a, size_t n, uint64_t v);

/* The same by binary search, for a sorted list: no pair is crossed, and neither the lower nor the upper bounds
   descend. Every list that a call has written is sorted. For any other list, true still means that `v` is a
   member, and false means nothing. O(log n), does not allocate, has no error code. */
bool ivl_contains_sorted_u64(const ivl_pair_u64 *a, size_t n, uint64_t v);

/* Writes the least member that is at least `v` and returns true, or writes nothing and returns false if there is
   none. The list may be in any order, and `v` may be outside the range. O(n), does not allocate, has no error
   code. */
bool ivl_next_from_u64(const ivl_pair_u64 *a, size_t n, uint64_t v, uint64_t *IVL_RESTRICT found);

/* The same by binary search, for a list that is sorted as for contains_sorted. For any other list, a number that
   is written is still a member that is at least `v`, but perhaps not the least one, and false means only that
   nothing is written. O(log n), does not allocate, has no error code. */
bool ivl_next_from_sorted_u64(const ivl_pair_u64 *a, size_t n, uint64_t v, uint64_t *IVL_RESTRICT found);

/* Writes the greatest member that is at most `v` and returns true, or writes nothing and returns false if there is
   none. Binary search in a list that is sorted as for contains_sorted; `v` may be outside the range. For any other
   list, a number that is written is still a member that is at most `v`, but perhaps not the greatest one, and false
   means only that nothing is written. O(log n), does not allocate, has no error code. */
bool ivl_previous_to_sorted_u64(const ivl_pair_u64 *a, size_t n, uint64_t v, uint64_t *IVL_RESTRICT found);

/* Writes the run that holds `v`, the longest interval of members with `v` in it, and returns true, or writes nothing
   and returns false if `v` is no member. Binary search in a list of runs. In a list that is only sorted, the run that
   is written is a pair of the list that holds `v`, and perhaps not the longest; for any other list this holds of a pair
   that is written, and false means only that nothing is written. O(log n), does not allocate, has no error code. */
bool ivl_run_at_sorted_u64(const ivl_pair_u64 *a, size_t n, uint64_t v, ivl_pair_u64 *IVL_RESTRICT found);

/* Writes the number of members below `v` and returns 0, or returns an error code and writes nothing. `v` may be outside
   the range. O(n log n). */
int64_t ivl_rank_u64(const ivl_pair_u64 *a, size_t n, uint64_t v, uint64_t *IVL_RESTRICT found);

/* Writes the member with exactly `i` members below it and returns 1. Otherwise writes nothing, and returns 0 if there
   are no more than `i` members, or an error code. O(n log n). */
int64_t ivl_nth_u64(const ivl_pair_u64 *a, size_t n, uint64_t i, uint64_t *IVL_RESTRICT found);

/* Edit a list in its own buffer, which has room for `room` pairs. The list is the first `n` of them, or all if `n` is
   greater. insert adds the numbers from `lower` to `upper` to its members, remove removes them; if `lower` is above
   `upper` there are none. As a call that makes a set does, they return the number of runs of the result, and write
   these to the start of the buffer if it has room for all. Numbers outside the range are IVL_OUT_OF_RANGE, for remove
   too. O(n log n). */
int64_t ivl_insert_u64(ivl_pair_u64 *runs, size_t room, size_t n, uint64_t lower, uint64_t upper);
int64_t ivl_remove_u64(ivl_pair_u64 *runs, size_t room, size_t n, uint64_t lower, uint64_t upper);

/* Writes the lowest `count` consecutive members as one run and returns 1. Otherwise writes nothing, and returns 0
   if there is no such run or `count` is 0, or an error code. O(n log n). */
int64_t ivl_first_fit_u64(const ivl_pair_u64 *a, size_t n, uint64_t count, ivl_pair_u64 *IVL_RESTRICT found);

#ifdef IVL_CHECKED
/* Whether two arrays of so many bytes have one in common. */
static inline bool ivl_has_common(const void *x, size_t x_size, const void *y, size_t y_size) {
    uintptr_t a = (uintptr_t)x, b = (uintptr_t)y;
    return x_size > 0 && y_size > 0 && (a <= b ? b - a < x_size : a - b < y_size);
}

#define IVL_CHECKED_ONE(name, type)                                                                                         \
    static inline int64_t ivl_checked_##name##_##type(const ivl_pair_##type *a, size_t n, ivl_pair_##type *out, size_t room) { \
        if (ivl_has_common(out, room * sizeof *out, a, n * sizeof *a))                                                      \
            return IVL_OVERLAP;                                                                                             \
        return ivl_##name##_##type(a, n, out, room);                                                                        \
    }
#define IVL_CHECKED_TWO(name, type)                                                                                         \
    static inline int64_t ivl_checked_##name##_##type(const ivl_pair_##type *a, size_t n, const ivl_pair_##type *b, size_t m,  \
                                                      ivl_pair_##type *out, size_t room) {                                   \
        if (ivl_has_common(out, room * sizeof *out, a, n * sizeof *a) ||                                                    \
            ivl_has_common(out, room * sizeof *out, b, m * sizeof *b))                                                      \
            return IVL_OVERLAP;                                                                                             \
        return ivl_##name##_##type(a, n, b, m, out, room);                                                                  \
    }
#define IVL_CHECKED_SIZE(type)                                                                                              \
    static inline int64_t ivl_checked_size_##type(const ivl_pair_##type *a, size_t n, uint64_t *size) {                      \
        return ivl_has_common(size, sizeof *size, a, n * sizeof *a) ? IVL_OVERLAP : ivl_size_##type(a, n, size);            \
    }
#define IVL_CHECKED_FIT(type)                                                                                               \
    static inline int64_t ivl_checked_first_fit_##type(const ivl_pair_##type *a, size_t n, uint64_t count,                   \
                                                       ivl_pair_##type *found) {                                             \
        if (ivl_has_common(found, sizeof *found, a, n * sizeof *a))                                                         \
            return IVL_OVERLAP;                                                                                             \
        return ivl_first_fit_##type(a, n, count, found);                                                                    \
    }
#define IVL_CHECKED_FOUND(name, type, by, written)                                                                          \
    static inline int64_t ivl_checked_##name##_##type(const ivl_pair_##type *a, size_t n, by key, written *found) {          \
        return ivl_has_common(found, sizeof *found, a, n * sizeof *a) ? IVL_OVERLAP : ivl_##name##_##type(a, n, key, found); \
    }
#define IVL_CHECKED_ALL(type, number)                                                                                       \
    IVL_CHECKED_ONE(normalize, type)                                                                                        \
    IVL_CHECKED_ONE(complement, type)                                                                                       \
    IVL_CHECKED_TWO(union, type)                                                                                            \
    IVL_CHECKED_TWO(intersection, type)                                                                                     \
    IVL_CHECKED_TWO(difference, type)                                                                                       \
    IVL_CHECKED_TWO(symmetric_difference, type)                                                                             \
    IVL_CHECKED_SIZE(type)                                                                                                  \
    IVL_CHECKED_TWO(sums_within, type)                                                                                      \
    IVL_CHECKED_TWO(differences_within, type)                                                                               \
    IVL_CHECKED_TWO(products, type)                                                                                         \
    IVL_CHECKED_FIT(type)                                                                                                   \
    IVL_CHECKED_FOUND(rank, type, number, uint64_t)                                                                         \
    IVL_CHECKED_FOUND(nth, type, uint64_t, number)
IVL_CHECKED_ALL(i64, int64_t)
IVL_CHECKED_ALL(u64, uint64_t)
#define ivl_normalize_i64(...) ivl_checked_normalize_i64(__VA_ARGS__)
#define ivl_complement_i64(...) ivl_checked_complement_i64(__VA_ARGS__)
#define ivl_union_i64(...) ivl_checked_union_i64(__VA_ARGS__)
#define ivl_intersection_i64(...) ivl_checked_intersection_i64(__VA_ARGS__)
#define ivl_difference_i64(...) ivl_checked_difference_i64(__VA_ARGS__)
#define ivl_symmetric_difference_i64(...) ivl_checked_symmetric_difference_i64(__VA_ARGS__)
#define ivl_size_i64(...) ivl_checked_size_i64(__VA_ARGS__)
#define ivl_sums_within_i64(...) ivl_checked_sums_within_i64(__VA_ARGS__)
#define ivl_differences_within_i64(...) ivl_checked_differences_within_i64(__VA_ARGS__)
#define ivl_products_i64(...) ivl_checked_products_i64(__VA_ARGS__)
#define ivl_first_fit_i64(...) ivl_checked_first_fit_i64(__VA_ARGS__)
#define ivl_rank_i64(...) ivl_checked_rank_i64(__VA_ARGS__)
#define ivl_nth_i64(...) ivl_checked_nth_i64(__VA_ARGS__)
#define ivl_normalize_u64(...) ivl_checked_normalize_u64(__VA_ARGS__)
#define ivl_complement_u64(...) ivl_checked_complement_u64(__VA_ARGS__)
#define ivl_union_u64(...) ivl_checked_union_u64(__VA_ARGS__)
#define ivl_intersection_u64(...) ivl_checked_intersection_u64(__VA_ARGS__)
#define ivl_difference_u64(...) ivl_checked_difference_u64(__VA_ARGS__)
#define ivl_symmetric_difference_u64(...) ivl_checked_symmetric_difference_u64(__VA_ARGS__)
#define ivl_size_u64(...) ivl_checked_size_u64(__VA_ARGS__)
#define ivl_sums_within_u64(...) ivl_checked_sums_within_u64(__VA_ARGS__)
#define ivl_differences_within_u64(...) ivl_checked_differences_within_u64(__VA_ARGS__)
#define ivl_products_u64(...) ivl_checked_products_u64(__VA_ARGS__)
#define ivl_first_fit_u64(...) ivl_checked_first_fit_u64(__VA_ARGS__)
#define ivl_rank_u64(...) ivl_checked_rank_u64(__VA_ARGS__)
#define ivl_nth_u64(...) ivl_checked_nth_u64(__VA_ARGS__)
#endif

/* Make the set of the sums or differences of a member of `a` and one of `b`: IVL_SUM_OUT_OF_RANGE if one of them is
   outside the range. O(n m log (n m)). They are of this header, over `ivl_sums_within` and `ivl_differences_within`:

   int64_t ivl_sums_i64(const ivl_pair_i64 *a, size_t n, const ivl_pair_i64 *b, size_t m, ivl_pair_i64 *out, size_t room)
   int64_t ivl_differences_i64(..), and both for u64 */
#define IVL_DEFINE_HULL(type)                                                                                               \
    /* Whether the list has a member; then the least and the greatest are written. */                                       \
    static inline bool ivl_hull_##type(const ivl_pair_##type *a, size_t n, ivl_pair_##type *IVL_RESTRICT hull) {            \
        bool has_member = false;                                                                                            \
        for (size_t i = 0; i < n; i++) {                                                                                    \
            if (a[i].lower > a[i].upper)                                                                                    \
                continue;                                                                                                   \
            if (!has_member || a[i].lower < hull->lower)                                                                    \
                hull->lower = a[i].lower;                                                                                   \
            if (!has_member || a[i].upper > hull->upper)                                                                    \
                hull->upper = a[i].upper;                                                                                   \
            has_member = true;                                                                                              \
        }                                                                                                                   \
        return has_member;                                                                                                  \
    }
/* `x` and `y` are what the lists reach over; a member outside the range has the code of the call below. */
#define IVL_DEFINE_SUMS(name, type, is_inside, fits)                                                                        \
    static inline int64_t ivl_##name##_##type(const ivl_pair_##type *a, size_t n, const ivl_pair_##type *b, size_t m,       \
                                              ivl_pair_##type *IVL_RESTRICT out, size_t room) {                             \
        ivl_pair_##type x = {0, 0}, y = {0, 0};                                                                             \
        if (ivl_hull_##type(a, n, &x) && ivl_hull_##type(b, m, &y) && (is_inside) && !(fits))                               \
            return IVL_SUM_OUT_OF_RANGE;                                                                                    \
        return ivl_##name##_within_##type(a, n, b, m, out, room);                                                           \
    }
IVL_DEFINE_HULL(i64)
IVL_DEFINE_HULL(u64)
IVL_DEFINE_SUMS(sums, i64, x.lower > INT64_MIN && y.lower > INT64_MIN,
                (y.lower >= 0 || x.lower >= -INT64_MAX - y.lower) && (y.upper <= 0 || x.upper <= INT64_MAX - y.upper))
IVL_DEFINE_SUMS(differences, i64, x.lower > INT64_MIN && y.lower > INT64_MIN,
                (y.upper <= 0 || x.lower >= -INT64_MAX + y.upper) && (y.lower >= 0 || x.upper <= INT64_MAX + y.lower))
IVL_DEFINE_SUMS(sums, u64, x.upper < UINT64_MAX && y.upper < UINT64_MAX, x.upper < UINT64_MAX - y.upper)
IVL_DEFINE_SUMS(differences, u64, x.upper < UINT64_MAX && y.upper < UINT64_MAX, x.lower >= y.upper)

#ifdef __cplusplus
}
#endif

#endif
