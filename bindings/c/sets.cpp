// Sets of each of the ten types beside std::set, at both ends of the type; in C++20 the ranges, too. Its last line tells how many
// calls agreed. It is linked with itself, compiled with IVL_CHECKED and without `main` (OTHER_FILE): both have the same calls.
#undef NDEBUG
#ifdef OTHER_FILE
#define IVL_CHECKED
#endif
#include "intervallum.hpp"

#include <cassert>

using calls_of_both = ivl::detail::calls<true>;
decltype(calls_of_both::unite) *unite_of_other();

#ifdef OTHER_FILE

decltype(calls_of_both::unite) *unite_of_other() { return &calls_of_both::unite; }

#else

#include <cstdio>
#include <cstdlib>
#include <numeric>
#include <random>
#include <set>
#include <string>

static std::mt19937_64 next;
static unsigned long compared;

static void agree(bool is_so, const char *what) {
    ++compared;
    if (is_so)
        return;
    std::printf("failed: %s, after %lu calls\n", what, compared);
    std::exit(1);
}

// Both forms of a set of some of the 40 numbers from a number on.
template <class T> struct both {
    std::set<T> plain;
    ivl::set<T> made;

    both(T low, unsigned share) {
        std::vector<ivl::run<T>> runs;
        for (int i = 0; i < 40; ++i)
            if (next() % 8 < share) {
                plain.insert(static_cast<T>(low + i));
                runs.push_back({static_cast<T>(low + i), static_cast<T>(low + i)});
            }
        std::shuffle(runs.begin(), runs.end(), next);
        made = ivl::set<T>(runs);
    }
};

template <class T> static bool same(const std::set<T> &plain, const ivl::set<T> &made) {
    auto members = made.members();
    bool is_same = std::equal(plain.begin(), plain.end(), members.begin(), members.end());
    is_same &= std::equal(plain.rbegin(), plain.rend(), std::reverse_iterator(members.end()), std::reverse_iterator(members.begin()));
    for (std::size_t i = 1; i < made.size(); ++i)
        is_same &= made[i - 1].upper < made[i].lower && ivl::run<T>{made[i - 1].upper, made[i].lower}.member_count() > 2;
    return is_same && made.member_count() == plain.size() && made == ivl::set<T>(plain);
}

template <class T, class F> static std::set<T> kept(const std::set<T> &from, const std::set<T> &also, F keeps) {
    std::set<T> all = from, result;
    all.insert(also.begin(), also.end());
    std::copy_if(all.begin(), all.end(), std::inserter(result, result.end()), keeps);
    return result;
}

template <class T> static void merges(const both<T> &a, const both<T> &b) {
    auto in = [](const both<T> &s, T v) { return s.plain.count(v) > 0; };
    agree(same(kept(a.plain, b.plain, [](T) { return true; }), a.made | b.made), "|");
    agree(same(kept(a.plain, b.plain, [&](T v) { return in(a, v) && in(b, v); }), a.made & b.made), "&");
    agree(same(kept(a.plain, b.plain, [&](T v) { return in(a, v) && !in(b, v); }), a.made - b.made), "-");
    agree(same(kept(a.plain, b.plain, [&](T v) { return in(a, v) != in(b, v); }), a.made ^ b.made), "^");
    agree(~~a.made == a.made && (~a.made & a.made).empty() && ((~a.made) | a.made) == ivl::set<T>::whole(), "~");
    agree((a.made < b.made) == (a.plain < b.plain) && (a.made >= b.made) == (a.plain >= b.plain), "<");
    agree((a.made == b.made) == (a.plain == b.plain) && (a.made != b.made) == (a.plain != b.plain), "==");
    bool is_subset = std::includes(b.plain.begin(), b.plain.end(), a.plain.begin(), a.plain.end());
    agree(a.made.is_subset(b.made) == is_subset, "is_subset");
}

// Sums and differences, of which no 128 bits are left out.
template <class T> static void sums(const both<T> &a, const both<T> &b) {
    __extension__ using wide = __int128;
    const wide low = ivl::set<T>::lowest(), high = ivl::set<T>::highest();
    for (int sign : {1, -1}) {
        std::set<T> inside;
        bool fits = true;
        for (T x : a.plain)
            for (T y : b.plain) {
                wide z = wide(x) + sign * wide(y);
                fits &= low <= z && z <= high;
                if (low <= z && z <= high)
                    inside.insert(static_cast<T>(z));
            }
        agree(same(inside, sign > 0 ? a.made.sums_within(b.made) : a.made.differences_within(b.made)), "sums_within");
        bool is_told = false;
        try {
            agree(same(inside, sign > 0 ? a.made.sums(b.made) : a.made.differences(b.made)), "sums");
        } catch (const std::out_of_range &) {
            is_told = true;
        }
        agree(is_told != fits, "sums outside the range");
    }
}

template <class T> static void searches(const both<T> &a, T low) {
    T v = static_cast<T>(low + next() % 40);
    auto above = a.plain.lower_bound(v), past = a.plain.upper_bound(v);
    agree(a.made.contains(v) == (a.plain.count(v) > 0) && a.made.run_at(v).has_value() == a.made.contains(v), "contains");
    agree(a.made.next_from(v) == (above == a.plain.end() ? std::nullopt : std::optional<T>(*above)), "next_from");
    agree(a.made.previous_to(v) == (past == a.plain.begin() ? std::nullopt : std::optional<T>(*std::prev(past))), "previous_to");
    auto below = static_cast<std::uint64_t>(std::distance(a.plain.begin(), above)), count = next() % 6;
    agree(a.made.rank(v) == below, "rank");
    agree(a.made.nth(below) == (above == a.plain.end() ? std::nullopt : std::optional<T>(*above)), "nth");
    auto fit = a.made.first_fit(count);
    auto is_fit = [&](T first) {
        for (std::uint64_t i = 0; i < count; ++i)
            if (!a.plain.count(static_cast<T>(static_cast<std::uint64_t>(first) + i)))
                return false;
        return count > 0;
    };
    auto first = std::find_if(a.plain.begin(), a.plain.end(), is_fit);
    agree(fit.has_value() == (first != a.plain.end()) && (!fit || (fit->lower == *first && fit->member_count() == count)), "first_fit");
}

template <class T> static void edits(both<T> &a, T low) {
    for (int i = 0; i < 12; ++i) {
        T lower = static_cast<T>(low + next() % 40), upper = static_cast<T>(low + next() % 40);
        const bool adds = next() % 2, one = next() % 2;
        upper = one ? lower : upper;
        auto before = a.plain.size();
        for (T v = lower; lower <= upper; ++v) {
            adds ? (void)a.plain.insert(v) : (void)a.plain.erase(v);
            if (v == upper)
                break;
        }
        bool is_told = adds ? (one ? a.made.insert(lower) : a.made.insert({lower, upper}))
                            : (one ? a.made.erase(lower) : a.made.erase({lower, upper}));
        agree(is_told == (a.plain.size() != before) && same(a.plain, a.made), adds ? "insert" : "erase");
    }
}

template <class T> static void of_type(int rounds) {
    static_assert(std::is_nothrow_move_constructible_v<ivl::set<T>> && std::is_nothrow_default_constructible_v<ivl::set<T>>);
    const T lows[] = {ivl::set<T>::lowest(), static_cast<T>(ivl::set<T>::highest() - 39), static_cast<T>(std::is_signed_v<T> ? -20 : 60)};
    for (int i = 0; i < rounds; ++i)
        for (T low : lows) {
            both<T> a(low, next() % 9), b(lows[next() % 3], next() % 9);
            merges(a, b);
            sums(a, b);
            searches(a, low);
            edits(a, low);
        }
}

#ifdef __cpp_lib_ranges
#include <ranges>

static void ranges() {
    using ints = ivl::set<int>;
    static_assert(std::ranges::random_access_range<ints> && std::ranges::sized_range<ints> && std::ranges::common_range<ints>);
    static_assert(std::ranges::view<ints::members_view> && std::ranges::bidirectional_range<ints::members_view>);
    static_assert(!std::ranges::sized_range<ints::members_view> && std::ranges::borrowed_range<ints::members_view>);
    static_assert(std::totally_ordered<ints> && std::three_way_comparable<ints, std::strong_ordering> && std::regular<ints>);
    const ints one{{1, 50}}, two{{1, 3}, {8, 9}};
    agree(std::ranges::size(one) == 1 && std::ranges::distance(one) == 1 && std::ranges::ssize(two) == 2, "size");
    agree(std::ranges::max_element(two, {}, &ivl::run<int>::upper)->lower == 8, "max_element");
    agree(std::ranges::lower_bound(two, 4, {}, &ivl::run<int>::lower) - two.begin() == 1, "lower_bound");
    agree(std::ranges::count_if(two.members(), [](int m) { return m > 2; }) == 3 && ints(two.members()) == two, "members");
// clang before 16 does not compile the views of GNU's library
#if !defined(__clang__) || __clang_major__ >= 16
    int seen = 0;
    for (auto [lower, upper] : one | std::views::take(10))
        seen += upper - lower;
    agree(seen == 49 && std::ranges::distance(one | std::views::take(10)) == 1, "take");
    agree(std::ranges::distance(two | std::views::reverse | std::views::drop(1)) == 1, "reverse");
    auto lowers = two | std::views::transform([](ivl::run<int> it) { return it.lower; });
    agree(std::ranges::equal(lowers, std::vector{1, 8}) && std::ranges::size(lowers) == 2, "transform");
    agree(std::ranges::equal(two.members() | std::views::filter([](int m) { return m % 2 == 1; }), std::vector{1, 3, 9}), "filter");
    agree(std::ranges::equal(two.members() | std::views::reverse | std::views::take(2), std::vector{9, 8}), "reversed members");
    agree(ints(std::views::iota(3, 8)) == ints({{3, 7}}), "of a view");
#endif
}
#else
static void ranges() {}
#endif

int main(int count, char **words) {
    int rounds = count > 1 ? std::atoi(words[1]) : 300;
    agree(&calls_of_both::unite == unite_of_other() && calls_of_both::unite == *unite_of_other(), "one definition in both files");
    ranges();
    of_type<signed char>(rounds);
    of_type<short>(rounds);
    of_type<int>(rounds);
    of_type<long>(rounds);
    of_type<long long>(rounds);
    of_type<unsigned char>(rounds);
    of_type<unsigned short>(rounds);
    of_type<unsigned>(rounds);
    of_type<unsigned long>(rounds);
    of_type<unsigned long long>(rounds);
    std::printf("%lu calls of sets of ten types agree with std::set\n", compared);
    return 0;
}
#endif
