/* Lets each request for memory of each call fail in turn: the call answers IVL_OUT_OF_MEMORY with nothing written, or its
   right answer. Of lists of runs, eight of the calls make no request. Answers 0 where that holds. */
#include "intervallum.h"

#include "refused.h"

#include <stdio.h>
#include <string.h>

enum { ROOM = 16 };

typedef int64_t call(const ivl_pair_i64 *a, size_t n, const ivl_pair_i64 *b, size_t m, ivl_pair_i64 *out, size_t room);

/* The calls of another shape, in that of the others. */
#define OTHERWISE(name, told)                                                                                                    \
    static int64_t name(const ivl_pair_i64 *a, size_t n, const ivl_pair_i64 *b, size_t m, ivl_pair_i64 *out, size_t room) {      \
        (void)b, (void)m, (void)out, (void)room;                                                                                 \
        return told;                                                                                                             \
    }

/* A call that writes a size, which stands in the first place of the buffer. */
static int64_t told_size(ivl_pair_i64 *out, int64_t told, uint64_t size) {
    if (told >= 0)
        out[0].lower = (int64_t)size;
    return told;
}

static int64_t size_of(const ivl_pair_i64 *a, size_t n, ivl_pair_i64 *out) {
    uint64_t size = (uint64_t)out[0].lower;
    int64_t told = ivl_size_i64(a, n, &size);
    return told_size(out, told, size);
}

static int64_t rank_of(const ivl_pair_i64 *a, size_t n, ivl_pair_i64 *out) {
    uint64_t rank = (uint64_t)out[0].lower;
    int64_t told = ivl_rank_i64(a, n, 40, &rank);
    return told_size(out, told, rank);
}

/* The list in the buffer is changed only by a call that answers; what it had is put back for the comparison. */
static int64_t edited(int64_t edit(ivl_pair_i64 *, size_t, size_t, int64_t, int64_t), const ivl_pair_i64 *a, size_t n, ivl_pair_i64 *out) {
    ivl_pair_i64 runs[ROOM];
    memcpy(runs, out, sizeof runs);
    memcpy(runs, a, n * sizeof *a);
    int64_t told = edit(runs, ROOM, n, 33, 34);
    if (told >= 0)
        memcpy(out, runs, sizeof runs);
    else if (memcmp(runs, a, n * sizeof *a) != 0)
        out[0].lower = 0;
    return told;
}

OTHERWISE(normalize, ivl_normalize_i64(a, n, out, room))
OTHERWISE(complement, ivl_complement_i64(a, n, out, room))
OTHERWISE(is_subset, ivl_is_subset_i64(a, n, b, m))
OTHERWISE(overlap, ivl_overlap_i64(a, n, b, m))
OTHERWISE(equal, ivl_equal_i64(a, n, b, m))
OTHERWISE(size, size_of(a, n, out))
OTHERWISE(first_fit, ivl_first_fit_i64(a, n, 2, out))
OTHERWISE(rank, rank_of(a, n, out))
OTHERWISE(nth, ivl_nth_i64(a, n, 3, &out[0].lower))
OTHERWISE(insert, edited(ivl_insert_i64, a, n, out))
OTHERWISE(remove_run, edited(ivl_remove_i64, a, n, out))

static const struct {
    const char *name;
    call *made;
} calls[] = {
    {"union", ivl_union_i64}, {"intersection", ivl_intersection_i64}, {"difference", ivl_difference_i64},
    {"symmetric_difference", ivl_symmetric_difference_i64}, {"complement", complement}, {"is_subset", is_subset},
    {"overlap", overlap}, {"equal", equal}, {"sums", ivl_sums_i64}, {"differences", ivl_differences_i64},
    {"sums_within", ivl_sums_within_i64}, {"differences_within", ivl_differences_within_i64},
    {"products", ivl_products_i64}, {"normalize", normalize}, {"size", size}, {"first_fit", first_fit},
    {"rank", rank}, {"nth", nth}, {"insert", insert}, {"remove", remove_run},
};

/* No list is in order, so that each has to be sorted. */
static const ivl_pair_i64 first[] = {{60, 70}, {1, 2}, {9, 4}, {31, 35}};
static const ivl_pair_i64 second[] = {{33, 65}, {7, 7}, {2, 3}};

/* Makes the call with one request refused after so many that are met: whether one was refused. */
static int refuse_one(call *made, int before, int64_t right, const ivl_pair_i64 *answer, int *failures) {
    ivl_pair_i64 out[ROOM], untouched[ROOM];
    memset(out, 0x55, sizeof out);
    memset(untouched, 0x55, sizeof untouched);

    refuse_after(before);
    int64_t told = made(first, 4, second, 3, out, ROOM);
    int is_one_refused = was_refused();

    int is_right = told == right && memcmp(out, answer, sizeof out) == 0;
    int is_code = told == IVL_OUT_OF_MEMORY && memcmp(out, untouched, sizeof out) == 0;
    if (!is_right && !(is_one_refused && is_code))
        (*failures)++;
    return is_one_refused;
}

static int refuse_each(call *made, const char *name) {
    ivl_pair_i64 answer[ROOM];
    int failures = 0, refused = 0;

    memset(answer, 0x55, sizeof answer);
    int64_t right = made(first, 4, second, 3, answer, ROOM);
    while (refuse_one(made, refused, right, answer, &failures))
        refused++;
    if (right < 0 || refused == 0)
        failures++;
    if (failures)
        printf("failed: %s, %d requests refused\n", name, refused);
    return failures;
}

/* Lists of runs, for which the first eight of the calls make no request, whatever the room. */
enum { WALKS = 8 };
static const ivl_pair_i64 runs[] = {{1, 2}, {31, 35}, {60, 70}};
static const ivl_pair_i64 others[] = {{2, 3}, {7, 7}, {33, 65}};

static int refuse_all(call *made, const char *name, size_t room) {
    ivl_pair_i64 out[ROOM];

    refuse_after(0);
    int64_t told = made(runs, 3, others, 3, out, room);
    int is_wrong = was_refused() || told < 0;
    if (is_wrong)
        printf("failed: %s of lists of runs in a room of %zu\n", name, room);
    return is_wrong;
}

int main(void) {
    int failures = 0;
    for (size_t i = 0; i < sizeof calls / sizeof calls[0]; i++)
        failures += refuse_each(calls[i].made, calls[i].name);
    for (size_t i = 0; i < WALKS; i++)
        failures += refuse_all(calls[i].made, calls[i].name, ROOM) + refuse_all(calls[i].made, calls[i].name, 1);
    printf("%d failed\n", failures);
    return failures != 0;
}
