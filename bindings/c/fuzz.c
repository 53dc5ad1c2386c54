/* Calls beside a model, from the bytes of an input: the sets are flags of 64 consecutive numbers, near each end of the range,
   near zero, and where sums and products leave the range. Each array that a call is given ends, or begins, at a page that
   cannot be read, and must be unchanged after the call where it is not written.

   With -DRANDOM it has a `main` that draws inputs: fuzz SECONDS [SEED]. Otherwise libFuzzer calls it. */
#define _DEFAULT_SOURCE
#include "intervallum.h"

#include <stdio.h>
#include <stdlib.h>
#include <string.h>
#include <sys/mman.h>
#include <time.h>

__extension__ typedef __int128 wide; /* any value of both types, and sums of two */
__extension__ typedef unsigned __int128 flags;

typedef struct {
    wide lower, upper;
} span;

enum { MOST_PAIRS = 12, MOST_RUNS = 32, MOST_SPANS = MOST_RUNS * MOST_RUNS, ROOM = 72 };

/* ---- the input */

typedef struct {
    const uint8_t *data;
    size_t size;
} input;

static unsigned byte(input *in) {
    if (in->size == 0)
        return 0;
    in->size--;
    return *in->data++;
}

/* ---- arrays beside pages that cannot be read */

typedef struct {
    char *start;
    size_t length, page;
} arena;

static arena make_arena(void) {
    arena made = {NULL, 1 << 16, 1 << 16}; /* a multiple of every usual size of a page */
    char *all = mmap(NULL, made.length + 2 * made.page, PROT_NONE, MAP_PRIVATE | MAP_ANONYMOUS, -1, 0);
    if (all == MAP_FAILED || mprotect(all + made.page, made.length, PROT_READ | PROT_WRITE) != 0) {
        perror("fuzz: mmap");
        exit(2);
    }
    made.start = all + made.page;
    return made;
}

static arena arenas[3]; /* of the first list, the second, and what is written */

/* Where `count` pairs lie that end at a guard page, or begin after one. */
static uint64_t *place(int which, size_t count, int at_start) {
    if (!arenas[which].start)
        arenas[which] = make_arena();
    return (uint64_t *)(arenas[which].start + (at_start ? 0 : arenas[which].length - 16 * count));
}

/* ---- lists and their flags */

static bool is_signed;
static wide least, greatest, outside, base;

typedef struct {
    uint64_t words[2 * MOST_RUNS]; /* the bounds, as they lie in memory */
    size_t count;
    flags members; /* bit i for the number base + i */
    bool in_order, is_runs;
    const uint64_t *at;
} list;

static void add(list *to, unsigned lower, unsigned upper) {
    to->words[2 * to->count] = (uint64_t)(base + lower);
    to->words[2 * to->count + 1] = (uint64_t)(base + upper);
    to->count++;
    for (unsigned i = lower; i <= upper; i++)
        to->members |= (flags)1 << i;
}

/* Pairs in any order, which may be crossed. */
static void any_pairs(input *in, list *to) {
    unsigned count = byte(in) % (MOST_PAIRS + 1);
    for (unsigned i = 0; i < count; i++) {
        unsigned lower = byte(in), upper = byte(in);
        add(to, lower % 64, upper % 64);
        if (lower % 64 > upper % 64 && lower >= 192) {
            /* crossed as far as it goes: no member, and so none outside the range */
            to->words[2 * to->count - 2] = is_signed ? (uint64_t)INT64_MAX : UINT64_MAX;
            to->words[2 * to->count - 1] = is_signed ? (uint64_t)INT64_MIN : 0;
        }
    }
}

/* The runs of eight bytes of flags. */
static void runs(input *in, list *to) {
    uint64_t drawn = 0;
    for (int i = 0; i < 8; i++)
        drawn = drawn << 8 | byte(in);
    for (unsigned i = 0; i < 64; i++) {
        unsigned start = i;
        while (i < 64 && drawn >> i & 1)
            i++;
        if (start < i)
            add(to, start, i - 1);
    }
    to->in_order = true;
    to->is_runs = true;
}

/* Pairs whose lower and upper bounds both ascend, and which may overlap and touch. */
static void ascending(input *in, list *to) {
    unsigned count = byte(in) % (MOST_PAIRS + 1), lower = 0, upper = 0;
    for (unsigned i = 0; i < count; i++) {
        unsigned drawn = byte(in);
        lower = lower + drawn % 8 < 63 ? lower + drawn % 8 : 63;
        upper = upper + drawn / 32 < 63 ? upper + drawn / 32 : 63;
        upper = lower < upper ? upper : lower;
        add(to, lower, upper);
    }
    to->in_order = true;
}

static list draw(input *in, int which) {
    list made = {.count = 0};
    unsigned form = byte(in);
    if (form % 3 == 0)
        any_pairs(in, &made);
    else if (form % 3 == 1)
        runs(in, &made);
    else
        ascending(in, &made);
    if (made.count == 0 && form & 64)
        return made; /* a null pointer */
    uint64_t *at = place(which, made.count, form & 128);
    memcpy(at, made.words, 16 * made.count);
    made.at = at;
    return made;
}

static bool is_outside(const list *a) {
    wide at = outside - base;
    return 0 <= at && at < 64 && (a->members >> (int)at & 1);
}

/* ---- what is expected */

static span expected[MOST_SPANS + 2];
static size_t count_expected;

static void expect_spans(flags members, wide from) {
    count_expected = 0;
    for (int i = 0; i < 127; i++) {
        int start = i;
        while (i < 127 && members >> i & 1)
            i++;
        if (start < i)
            expected[count_expected++] = (span){from + start, from + i - 1};
    }
}

static flags in_range(flags members, wide from) {
    for (int i = 0; i < 127; i++)
        if (from + i < least || greatest < from + i)
            members &= ~((flags)1 << i);
    return members;
}

static void expect_complement(flags members) {
    span made[MOST_RUNS + 1];
    size_t count = 0;
    wide next = least;
    expect_spans(members, base);
    for (size_t i = 0; i < count_expected; i++) {
        if (next < expected[i].lower)
            made[count++] = (span){next, expected[i].lower - 1};
        next = expected[i].upper + 1;
    }
    if (next <= greatest)
        made[count++] = (span){next, greatest};
    memcpy(expected, made, count * sizeof *made);
    count_expected = count;
}

/* The sums of members, or with `turned` the differences. Returns whether all are in the range. */
static bool expect_sums(flags a, flags b, bool turned) {
    flags made = 0;
    for (int j = 0; j < 64; j++)
        if (b >> j & 1)
            made |= a << (turned ? 63 - j : j);
    wide from = turned ? -63 : 2 * base;
    expect_spans(in_range(made, from), from);
    return in_range(made, from) == made;
}

/* The least and the greatest product of two runs. Returns whether both are in the range. */
static bool hull(span x, span y, span *made) {
    if (!is_signed) {
        /* a product of two values of uint64_t may be more than a signed number of 128 bits */
        if ((flags)x.upper * (flags)y.upper > (flags)greatest)
            return false;
        *made = (span){x.lower * y.lower, x.upper * y.upper};
        return true;
    }
    wide corners[] = {x.lower * y.lower, x.lower * y.upper, x.upper * y.lower, x.upper * y.upper};
    *made = (span){corners[0], corners[0]};
    for (int i = 1; i < 4; i++) {
        made->lower = corners[i] < made->lower ? corners[i] : made->lower;
        made->upper = corners[i] > made->upper ? corners[i] : made->upper;
    }
    return least <= made->lower && made->upper <= greatest;
}

static int by_lower(const void *x, const void *y) {
    wide a = ((const span *)x)->lower, b = ((const span *)y)->lower;
    return (a > b) - (a < b);
}

/* Returns whether all products are in the range. */
static bool expect_products(flags a, flags b) {
    static span hulls[MOST_SPANS], x[MOST_RUNS];
    size_t count = 0, n;
    expect_spans(a, base);
    memcpy(x, expected, sizeof x);
    n = count_expected;
    expect_spans(b, base);
    for (size_t i = 0; i < n; i++)
        for (size_t j = 0; j < count_expected; j++)
            if (!hull(x[i], expected[j], &hulls[count++]))
                return false;
    qsort(hulls, count, sizeof *hulls, by_lower);
    count_expected = 0;
    for (size_t i = 0; i < count; i++) {
        span *last = expected + count_expected - 1;
        if (count_expected == 0 || last->upper + 1 < hulls[i].lower)
            expected[count_expected++] = hulls[i];
        else if (last->upper < hulls[i].upper)
            last->upper = hulls[i].upper;
    }
    return true;
}

/* ---- the calls, over both types of bounds */

#define OF_ONE(name)                                                                                                   \
    static int64_t call_##name(const list *a, const list *b, void *out, size_t room) {                                 \
        (void)b;                                                                                                       \
        const void *p = a->at;                                                                                         \
        return is_signed ? ivl_##name##_i64(p, a->count, out, room) : ivl_##name##_u64(p, a->count, out, room);        \
    }
#define OF_TWO(name)                                                                                                   \
    static int64_t call_##name(const list *a, const list *b, void *out, size_t room) {                                 \
        const void *p = a->at, *q = b->at;                                                                             \
        return is_signed ? ivl_##name##_i64(p, a->count, q, b->count, out, room)                                       \
                         : ivl_##name##_u64(p, a->count, q, b->count, out, room);                                      \
    }
#define QUERY(name)                                                                                                    \
    static int64_t call_##name(const list *a, const list *b) {                                                         \
        const void *p = a->at, *q = b->at;                                                                             \
        return is_signed ? ivl_##name##_i64(p, a->count, q, b->count) : ivl_##name##_u64(p, a->count, q, b->count);    \
    }
#define CONTAINS(name)                                                                                                 \
    static bool call_##name(const list *a, uint64_t v) {                                                               \
        const void *p = a->at;                                                                                         \
        return is_signed ? ivl_##name##_i64(p, a->count, (int64_t)v) : ivl_##name##_u64(p, a->count, v);               \
    }
#define NEXT(name)                                                                                                     \
    static bool call_##name(const list *a, uint64_t v, void *found) {                                                  \
        const void *p = a->at;                                                                                         \
        return is_signed ? ivl_##name##_i64(p, a->count, (int64_t)v, found) : ivl_##name##_u64(p, a->count, v, found); \
    }
OF_ONE(normalize)
OF_ONE(complement)
OF_TWO(union)
OF_TWO(intersection)
OF_TWO(difference)
OF_TWO(symmetric_difference)
OF_TWO(sums)
OF_TWO(differences)
OF_TWO(sums_within)
OF_TWO(differences_within)
OF_TWO(products)
QUERY(is_subset)
QUERY(overlap)
QUERY(equal)
CONTAINS(contains)
CONTAINS(contains_sorted)
NEXT(next_from)
NEXT(next_from_sorted)
NEXT(previous_to_sorted)
NEXT(run_at_sorted)

/* ---- the comparison */

static unsigned long long calls;

static void show(const char *name, const list *a) {
    fprintf(stderr, "%s:", name);
    for (size_t i = 0; i < a->count; i++) {
        if (is_signed)
            fprintf(stderr, " [%lld..%lld]", (long long)a->words[2 * i], (long long)a->words[2 * i + 1]);
        else
            fprintf(stderr, " [%llu..%llu]", (unsigned long long)a->words[2 * i], (unsigned long long)a->words[2 * i + 1]);
    }
    fprintf(stderr, "\n");
}

static void check(bool holds, const char *call, const char *what, const list *a, const list *b) {
    if (holds)
        return;
    fprintf(stderr, "fuzz: ivl_%s_%s: %s\n", call, is_signed ? "i64" : "u64", what);
    show("a", a);
    show("b", b);
    abort();
}

static bool is_unchanged(const list *a) {
    return a->count == 0 || memcmp(a->at, a->words, 16 * a->count) == 0;
}

static void check_inputs(const char *call, const list *a, const list *b) {
    calls++;
    check(is_unchanged(a), call, "the first list was changed", a, b);
    check(is_unchanged(b), call, "the second list was changed", a, b);
}

typedef int64_t making(const list *a, const list *b, void *out, size_t room);

/* A call that makes a set, beside what is expected, or a code. */
static void check_set(const char *name, making *call, const list *a, const list *b, size_t room, int64_t code) {
    const uint64_t mark = 0x5a5a5a5a5a5a5a5a;
    uint64_t *out = room == 0 && a->members & 1 ? NULL : place(2, room, room & 1);
    for (size_t i = 0; i < 2 * room; i++)
        out[i] = mark + i;
    int64_t told = call(a, b, out, room);
    check(told == (code ? code : (int64_t)count_expected), name, "the number of runs, or the code", a, b);
    size_t written = !code && count_expected <= room ? count_expected : 0;
    for (size_t i = 0; i < written; i++) {
        bool same = out[2 * i] == (uint64_t)expected[i].lower && out[2 * i + 1] == (uint64_t)expected[i].upper;
        check(same, name, "a run that was written", a, b);
    }
    for (size_t i = 2 * written; i < 2 * room; i++)
        check(out[i] == mark + i, name, "a place after the answer was written", a, b);
    check_inputs(name, a, b);
}

static void check_sets(input *in, const list *a, const list *b) {
    size_t room = byte(in) % (ROOM + 1);
    int64_t one = is_outside(a) ? IVL_OUT_OF_RANGE : 0, two = is_outside(b) ? IVL_OUT_OF_RANGE : one;
    expect_spans(a->members, base);
    check_set("normalize", call_normalize, a, b, room, one);
    expect_complement(a->members);
    check_set("complement", call_complement, a, b, room, one);
    expect_spans(a->members | b->members, base);
    check_set("union", call_union, a, b, room, two);
    expect_spans(a->members & b->members, base);
    check_set("intersection", call_intersection, a, b, room, two);
    expect_spans(a->members & ~b->members, base);
    check_set("difference", call_difference, a, b, room, two);
    expect_spans(a->members ^ b->members, base);
    check_set("symmetric_difference", call_symmetric_difference, a, b, room, two);
    bool fits = expect_sums(a->members, b->members, false);
    check_set("sums", call_sums, a, b, room, two ? two : fits ? 0 : IVL_SUM_OUT_OF_RANGE);
    check_set("sums_within", call_sums_within, a, b, room, two);
    fits = expect_sums(a->members, b->members, true);
    check_set("differences", call_differences, a, b, room, two ? two : fits ? 0 : IVL_SUM_OUT_OF_RANGE);
    check_set("differences_within", call_differences_within, a, b, room, two);
    fits = expect_products(a->members, b->members);
    check_set("products", call_products, a, b, room, two ? two : fits ? 0 : IVL_PRODUCT_OUT_OF_RANGE);
}

static void check_queries(const list *a, const list *b) {
    bool bad = is_outside(a) || is_outside(b);
    int64_t code = IVL_OUT_OF_RANGE;
    check(call_is_subset(a, b) == (bad ? code : !(a->members & ~b->members)), "is_subset", "the answer", a, b);
    check_inputs("is_subset", a, b);
    check(call_overlap(a, b) == (bad ? code : !!(a->members & b->members)), "overlap", "the answer", a, b);
    check_inputs("overlap", a, b);
    check(call_equal(a, b) == (bad ? code : a->members == b->members), "equal", "the answer", a, b);
    check_inputs("equal", a, b);
}

static void check_size(const list *a) {
    uint64_t *found = place(2, 1, 0) + 1; /* eight bytes before the guard page */
    int64_t code = is_outside(a) ? IVL_OUT_OF_RANGE : 0;
    uint64_t count = 0;
    for (int i = 0; i < 64; i++)
        count += a->members >> i & 1;
    *found = 77;
    const void *p = a->at;
    int64_t told = is_signed ? ivl_size_i64(p, a->count, found) : ivl_size_u64(p, a->count, found);
    check(told == code && *found == (code ? 77 : count), "size", "the answer", a, a);
    check_inputs("size", a, a);
}

static void check_member(input *in, const list *a) {
    unsigned drawn = byte(in);
    uint64_t v = drawn < 192 ? (uint64_t)(base + drawn % 64) : (uint64_t)1 << drawn % 64;
    wide number = is_signed ? (wide)(int64_t)v : (wide)v, next = base;
    bool is_in = base <= number && number < base + 64 && (a->members >> (int)(number - base) & 1);
    uint64_t *found = place(2, 1, 0) + 1;

    while (next < base + 64 && (next < number || !(a->members >> (int)(next - base) & 1)))
        next++;
    bool is_there = next < base + 64;
    check(call_contains(a, v) == is_in, "contains", "the answer", a, a);
    check_inputs("contains", a, a);
    bool told = call_contains_sorted(a, v);
    check(told ? is_in : !is_in || !a->in_order, "contains_sorted", "the answer", a, a);
    check_inputs("contains_sorted", a, a);
    *found = 77;
    told = call_next_from(a, v, found);
    check(told == is_there && *found == (told ? (uint64_t)next : 77), "next_from", "the answer", a, a);
    check_inputs("next_from", a, a);
    *found = 77;
    told = call_next_from_sorted(a, v, found);
    wide at = (is_signed ? (wide)(int64_t)*found : (wide)*found) - base;
    bool is_exact = told == is_there && *found == (told ? (uint64_t)next : 77);
    bool is_member = told ? next - base <= at && at < 64 && (a->members >> (int)at & 1) : *found == 77;
    check(a->in_order ? is_exact : is_member, "next_from_sorted", "the answer", a, a);
    check_inputs("next_from_sorted", a, a);
}

static bool has(const list *a, wide number) {
    return base <= number && number < base + 64 && (a->members >> (int)(number - base) & 1);
}

/* The greatest member up to a number, and the run that holds it. */
static void check_beside(input *in, const list *a) {
    unsigned drawn = byte(in);
    uint64_t v = drawn < 192 ? (uint64_t)(base + drawn % 64) : (uint64_t)1 << drawn % 64;
    wide number = is_signed ? (wide)(int64_t)v : (wide)v, previous = base + 63;
    uint64_t *found = place(2, 1, 0), *one = found + 1;

    while (base <= previous && (number < previous || !has(a, previous)))
        previous--;
    bool is_there = base <= previous;
    *one = 77;
    bool told = call_previous_to_sorted(a, v, one);
    wide at = is_signed ? (wide)(int64_t)*one : (wide)*one;
    bool is_exact = told == is_there && *one == (told ? (uint64_t)previous : 77);
    bool is_member = told ? at <= number && has(a, at) : *one == 77;
    check(a->in_order ? is_exact : is_member, "previous_to_sorted", "the answer", a, a);
    check_inputs("previous_to_sorted", a, a);

    found[0] = 77;
    found[1] = 76;
    told = call_run_at_sorted(a, v, found);
    wide lower = is_signed ? (wide)(int64_t)found[0] : (wide)found[0], upper = is_signed ? (wide)(int64_t)found[1] : (wide)found[1];
    bool is_pair = lower <= number && number <= upper && base <= lower && upper < base + 64;
    for (wide z = lower; is_pair && z <= upper; z++)
        is_pair = has(a, z);
    check(told ? is_pair : found[0] == 77 && found[1] == 76, "run_at_sorted", "the run", a, a);
    check(!a->in_order || told == has(a, number), "run_at_sorted", "the answer", a, a);
    check(!told || !a->is_runs || (!has(a, lower - 1) && !has(a, upper + 1)), "run_at_sorted", "a longer run", a, a);
    check_inputs("run_at_sorted", a, a);
}

static void check_fit(input *in, const list *a) {
    unsigned drawn = byte(in);
    uint64_t count = drawn < 192 ? drawn % 66 : (uint64_t)1 << drawn % 64;
    uint64_t *found = place(2, 1, 0);
    int64_t code = is_outside(a) ? IVL_OUT_OF_RANGE : 0;
    size_t i = 0;

    expect_spans(a->members, base);
    while (i < count_expected && (uint64_t)(expected[i].upper - expected[i].lower) + 1 < count)
        i++;
    bool fits = !code && count > 0 && i < count_expected;
    found[0] = 77;
    found[1] = 76;
    const void *p = a->at;
    void *to = found;
    int64_t told = is_signed ? ivl_first_fit_i64(p, a->count, count, to) : ivl_first_fit_u64(p, a->count, count, to);
    check(told == (code ? code : fits), "first_fit", "the answer", a, a);
    uint64_t lower = fits ? (uint64_t)expected[i].lower : 77, upper = fits ? lower + count - 1 : 76;
    check(found[0] == lower && found[1] == upper, "first_fit", "the run", a, a);
    check_inputs("first_fit", a, a);
}

/* How many members lie below a number, and the member with so many below it. */
static void check_rank(input *in, const list *a) {
    unsigned drawn = byte(in);
    uint64_t v = drawn < 192 ? (uint64_t)(base + drawn % 64) : (uint64_t)1 << drawn % 64, below = 0, left = byte(in) % 66, i = left;
    wide number = is_signed ? (wide)(int64_t)v : (wide)v, member = base;
    uint64_t *found = place(2, 1, 0) + 1;
    int64_t code = is_outside(a) ? IVL_OUT_OF_RANGE : 0;
    const void *p = a->at;
    void *to = found;

    for (wide z = base; z < base + 64; z++)
        below += z < number && has(a, z);
    *found = 77;
    int64_t told = is_signed ? ivl_rank_i64(p, a->count, (int64_t)v, found) : ivl_rank_u64(p, a->count, v, found);
    check(told == code && *found == (code ? 77 : below), "rank", "the answer", a, a);
    check_inputs("rank", a, a);

    while (member < base + 64 && (!has(a, member) || left-- > 0))
        member++;
    bool is_there = !code && member < base + 64;
    *found = 77;
    told = is_signed ? ivl_nth_i64(p, a->count, i, to) : ivl_nth_u64(p, a->count, i, to);
    check(told == (code ? code : is_there) && *found == (is_there ? (uint64_t)member : 77), "nth", "the answer", a, a);
    check_inputs("nth", a, a);
}

/* A run is added to a list in its own buffer, or removed from it. */
static void check_edit(input *in, const list *a, bool removes) {
    const char *name = removes ? "remove" : "insert";
    unsigned lower = byte(in) % 64, upper = byte(in) % 64, drawn = byte(in);
    size_t room = a->count + drawn % 4, n = a->count + (drawn % 4 == 0 ? drawn / 4 : 0);
    uint64_t *buffer = place(2, room, drawn & 128), before[2 * (MOST_RUNS + 4)];
    list run = {.count = 0};
    add(&run, lower, upper);

    memset(before, 0x5a, sizeof before);
    memcpy(before, a->words, 16 * a->count);
    memcpy(buffer, before, 16 * room);
    uint64_t low = run.words[0], high = run.words[1];
    void *at = buffer;
    int64_t told;
    if (is_signed)
        told = (removes ? ivl_remove_i64 : ivl_insert_i64)(at, room, n, (int64_t)low, (int64_t)high);
    else
        told = (removes ? ivl_remove_u64 : ivl_insert_u64)(at, room, n, low, high);
    int64_t code = is_outside(a) || is_outside(&run) ? IVL_OUT_OF_RANGE : 0;
    expect_spans(removes ? a->members & ~run.members : a->members | run.members, base);
    check(told == (code ? code : (int64_t)count_expected), name, "the number of runs, or the code", a, &run);
    for (size_t i = 0; !code && count_expected <= room && i < count_expected; i++) {
        before[2 * i] = (uint64_t)expected[i].lower;
        before[2 * i + 1] = (uint64_t)expected[i].upper;
    }
    check(memcmp(buffer, before, 16 * room) == 0, name, "the buffer", a, &run);
    calls++;
}

/* Where the numbers of the flags begin. */
static void choose(unsigned drawn) {
    const wide two_32 = (wide)1 << 32, two_62 = (wide)1 << 62, two_63 = (wide)1 << 63;
    const wide of_signed[] = {-two_63, -two_62 - 32, -3037000531, -32, 3037000467, two_62 - 32, two_63 - 64};
    const wide of_unsigned[] = {0, two_32 - 32, two_63 - 32, 2 * two_63 - 64};
    is_signed = drawn & 1;
    least = is_signed ? -two_63 + 1 : 0;
    greatest = is_signed ? two_63 - 1 : 2 * two_63 - 2;
    outside = is_signed ? -two_63 : 2 * two_63 - 1;
    base = is_signed ? of_signed[drawn / 2 % 7] : of_unsigned[drawn / 2 % 4];
}

int LLVMFuzzerTestOneInput(const uint8_t *data, size_t size) {
    input in = {data, size};
    choose(byte(&in));
    list a = draw(&in, 0), b = draw(&in, 1);
    check_sets(&in, &a, &b);
    check_queries(&a, &b);
    check_size(&a);
    check_member(&in, &a);
    check_beside(&in, &a);
    check_fit(&in, &a);
    check_rank(&in, &a);
    check_edit(&in, &a, false);
    check_edit(&in, &b, true);
    return 0;
}

#ifdef RANDOM
int main(int count, char **words) {
    double seconds = count > 1 ? atof(words[1]) : 60;
    unsigned long long seed = count > 2 ? strtoull(words[2], NULL, 10) : 1, state = seed * 2 + 1, inputs = 0;
    uint8_t data[96];
    for (time_t end = time(NULL) + (time_t)seconds; time(NULL) < end; inputs++) {
        for (size_t i = 0; i < sizeof data; i++) {
            state = state * 6364136223846793005u + 1442695040888963407u;
            data[i] = (uint8_t)(state >> 56);
        }
        LLVMFuzzerTestOneInput(data, sizeof data);
    }
    printf("%llu inputs of seed %llu, %llu calls\n", inputs, seed, calls);
    return inputs == 0;
}
#endif
