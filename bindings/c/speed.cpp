// Times ivl::set, ivl::paged_set and calls of C into a buffer beside Boost.ICL and CRoaring, where these are installed, over the same
// runs: bindings/peers compiles it, and makes a table of what it prints. A line is a task, the number of runs, a kind of set, and
// nanoseconds of the processor: the least of ten rounds. An edit is half of the time of adding a number and taking it out.
#include "intervallum_handles.hpp"

#include <cstdio>
#include <cstdlib>
#include <ctime>
#include <vector>

#if defined(__has_include)
#if __has_include(<boost/icl/interval_set.hpp>)
#define HAS_BOOST 1
#include <boost/icl/interval_set.hpp>
#endif
#if __has_include(<roaring/roaring.h>)
#define HAS_ROARING 1
#include <roaring/roaring.h>
#endif
#endif

using number = std::int64_t;
using runs_of = std::vector<ivl::run<number>>;

static volatile std::uint64_t kept; // so that no answer is left out

struct generator {
    std::uint64_t state;
    std::uint32_t operator()() { return static_cast<std::uint32_t>((state = state * 6364136223846793005u + 1442695040888963407u) >> 33); }
};

// Runs of 1 to 8 numbers with gaps of 1 to 8.
static runs_of drawn(std::size_t count, std::uint64_t seed) {
    generator next{seed};
    runs_of made;
    number at = 0;
    for (std::size_t i = 0; i < count; ++i) {
        number lower = at + 2 + next() % 8;
        at = lower + next() % 8;
        made.push_back({lower, at});
    }
    return made;
}

// What each kind of set does.
struct list {
    static constexpr bool only_merges = false;
    static constexpr const char *name = "ivl::set";
    using set = ivl::set<number>;
    static set of(const runs_of &runs) { return set(runs); }
    static std::uint64_t unite(const set &a, const set &b) { return (a | b).size(); }
    static std::uint64_t intersect(const set &a, const set &b) { return (a & b).size(); }
    static bool contains(const set &a, number v) { return a.contains(v); }
    static void insert(set &a, number v) { a.insert(v); }
    static void erase(set &a, number v) { a.erase(v); }
};

struct pages : list {
    static constexpr const char *name = "ivl::paged_set";
    using set = ivl::paged_set<number>;
    static set of(const runs_of &runs) { return set(ivl::set<number>(runs)); }
    static std::uint64_t unite(const set &a, const set &b) { return (a | b).size(); }
    static std::uint64_t intersect(const set &a, const set &b) { return (a & b).size(); }
    static bool contains(const set &a, number v) { return a.contains(v); }
    static void insert(set &a, number v) { a.insert(v); }
    static void erase(set &a, number v) { a.erase(v); }
};

// The calls of C, which write to a buffer that was used before.
struct into_buffer : list {
    static constexpr bool only_merges = true;
    static constexpr const char *name = "C, into a buffer";
    static std::vector<ivl_pair_i64> &room(std::size_t runs) {
        static std::vector<ivl_pair_i64> out;
        if (out.size() < runs)
            out.resize(runs);
        return out;
    }
    static std::uint64_t unite(const set &a, const set &b) {
        auto &out = room(a.size() + b.size());
        return static_cast<std::uint64_t>(ivl_union_i64(a.pairs(), a.size(), b.pairs(), b.size(), out.data(), out.size()));
    }
    static std::uint64_t intersect(const set &a, const set &b) {
        auto &out = room(a.size() + b.size());
        return static_cast<std::uint64_t>(ivl_intersection_i64(a.pairs(), a.size(), b.pairs(), b.size(), out.data(), out.size()));
    }
};

#ifdef HAS_BOOST
struct boost_icl {
    static constexpr bool only_merges = false;
    static constexpr const char *name = "Boost.ICL";
    using set = boost::icl::interval_set<number>;
    using interval = set::interval_type;
    static set of(const runs_of &runs) {
        set made;
        for (auto [lower, upper] : runs)
            made.insert(made.end(), interval::right_open(lower, upper + 1));
        return made;
    }
    static std::uint64_t unite(const set &a, const set &b) { return (a + b).iterative_size(); }
    static std::uint64_t intersect(const set &a, const set &b) { return (a & b).iterative_size(); }
    static bool contains(const set &a, number v) { return boost::icl::contains(a, v); }
    static void insert(set &a, number v) { a.add(interval::right_open(v, v + 1)); }
    static void erase(set &a, number v) { a.subtract(interval::right_open(v, v + 1)); }
};
#endif

#ifdef HAS_ROARING
struct roaring {
    static constexpr bool only_merges = false;
    static constexpr const char *name = "CRoaring";
    struct set {
        std::shared_ptr<roaring_bitmap_t> at;
    };
    static set held(roaring_bitmap_t *at) { return {std::shared_ptr<roaring_bitmap_t>(at, [](roaring_bitmap_t *it) { roaring_bitmap_free(it); })}; }
    static std::uint32_t as(number v) { return static_cast<std::uint32_t>(v); }
    static set of(const runs_of &runs) {
        set made = held(roaring_bitmap_create());
        for (auto [lower, upper] : runs)
            roaring_bitmap_add_range_closed(made.at.get(), as(lower), as(upper));
        roaring_bitmap_run_optimize(made.at.get());
        return made;
    }
    static std::uint64_t unite(const set &a, const set &b) { return held(roaring_bitmap_or(a.at.get(), b.at.get())).at->high_low_container.size; }
    static std::uint64_t intersect(const set &a, const set &b) { return held(roaring_bitmap_and(a.at.get(), b.at.get())).at->high_low_container.size; }
    static bool contains(const set &a, number v) { return roaring_bitmap_contains(a.at.get(), as(v)); }
    static void insert(set &a, number v) { roaring_bitmap_add(a.at.get(), as(v)); }
    static void erase(set &a, number v) { roaring_bitmap_remove(a.at.get(), as(v)); }
};
#endif

// The processor's time up to now, in nanoseconds.
static double now() {
    timespec at;
    clock_gettime(CLOCK_PROCESS_CPUTIME_ID, &at);
    return 1e9 * static_cast<double>(at.tv_sec) + static_cast<double>(at.tv_nsec);
}

// The least time of a call in ten rounds, each of a fiftieth of a second or one call.
template <class Call> static double nanoseconds(Call call) {
    double least = 1e18, taken = 0;
    long calls = 1;
    for (int round = 0; round < 10; ++round) {
        double start = now();
        for (long i = 0; i < calls; ++i)
            call();
        taken = now() - start;
        least = std::min(least, taken / static_cast<double>(calls));
        // at first, twice as many calls until they take long enough
        if (round == 0 && taken < 2e7) {
            calls *= 2;
            round = -1;
        }
        if (taken > 1e9 && round > 1)
            break;
    }
    return least;
}

static void print(const char *task, std::size_t runs, const char *kind, double time) {
    std::printf("%s\t%zu\t%s\t%.1f\n", task, runs, kind, time);
    std::fflush(stdout);
}

// Makes an empty set have so many random numbers.
template <class Kind> static void fill(std::size_t count) {
    generator next{9};
    std::vector<number> added;
    for (std::size_t i = 0; i < count; ++i)
        added.push_back(static_cast<number>(next() % (10 * count)));
    print("fill at random", count, Kind::name, nanoseconds([&] {
        auto made = Kind::of({});
        for (number v : added)
            Kind::insert(made, v);
        kept = Kind::contains(made, 7);
    }));
}

template <class Kind, class Set> static void time_single(Set &a, number highest, std::size_t count) {
    generator next{5};
    std::vector<number> numbers, free;
    for (int i = 0; i < 1000; ++i)
        numbers.push_back(static_cast<number>(next()) % (highest + 1));
    std::copy_if(numbers.begin(), numbers.end(), std::back_inserter(free), [&](number v) { return !Kind::contains(a, v); });
    print("search", count, Kind::name, nanoseconds([&] {
        std::uint64_t hits = 0;
        for (number v : numbers)
            hits += Kind::contains(a, v);
        kept = hits;
    }) / 1000);
    print("edit", count, Kind::name, nanoseconds([&] {
        for (number v : free) {
            Kind::insert(a, v);
            Kind::erase(a, v);
        }
    }) / (2.0 * static_cast<double>(free.size())));
}

template <class Kind> static void time_all(std::size_t count) {
    const runs_of first = drawn(count, 1), second = drawn(count, 2);
    auto a = Kind::of(first), b = Kind::of(second);
    print("union", count, Kind::name, nanoseconds([&] { kept = Kind::unite(a, b); }));
    print("intersection", count, Kind::name, nanoseconds([&] { kept = Kind::intersect(a, b); }));
    if (Kind::only_merges)
        return;
    print("make of runs", count, Kind::name, nanoseconds([&] { auto made = Kind::of(first); kept = Kind::contains(made, 7); }));
    time_single<Kind>(a, first.back().upper, count);
    // a list takes the square of the numbers
    if (!std::is_same_v<Kind, list> || count <= 100000)
        fill<Kind>(count);
}

template <class... Kinds> static void time_kinds() {
    for (std::size_t count : {10, 1000, 10000, 1000000})
        (time_all<Kinds>(count), ...);
}

int main() {
    time_kinds<into_buffer, list, pages
#ifdef HAS_BOOST
               , boost_icl
#endif
#ifdef HAS_ROARING
               , roaring
#endif
               >();
}
