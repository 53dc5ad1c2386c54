// Sets in C++17. Exits 0, and its last line is "the sets of C++ agree".
#undef NDEBUG
#include "intervallum.hpp"

#include <cassert>
#include <cstdio>
#include <iterator>
#include <map>
#include <sstream>
#include <unordered_set>

using signed_set = ivl::set<std::int64_t>;
using unsigned_set = ivl::set<std::uint64_t>;

template <class F> static bool is_out_of_range(F f) {
    try {
        f();
    } catch (const std::out_of_range &) {
        return true;
    }
    return false;
}

static void merges() {
    const signed_set a{{6, 10}, {1, 2}, {9, 4}}, b{{3, 5}}, none;
    assert(a.size() == 2 && a.member_count() == 7 && a.begin()->lower == 1 && std::next(a.begin())->upper == 10);
    assert((a | b) == signed_set({{1, 10}}) && (a & b).empty() && (a - signed_set{{7, 8}}) == signed_set({{1, 2}, {6, 6}, {9, 10}}));
    assert((a ^ signed_set{{2, 6}}) == signed_set({{1, 1}, {3, 5}, {7, 10}}) && ~~a == a && ~none != none);
    assert((none | a) == a && (none & a) == none && none.is_subset(a) && !a.overlaps(none));
    assert(a.within(2, 7) == signed_set({{2, 2}, {6, 7}}) && a.gaps_within(2, 7) == signed_set({{3, 5}}));
    signed_set changed = a;
    changed |= b;
    changed -= signed_set{{4, 4}};
    assert(changed == signed_set({{1, 3}, {5, 10}}) && a.overlaps(signed_set{{10, 20}}));
    assert((~unsigned_set{}).member_count() == UINT64_MAX && (~none).member_count() == UINT64_MAX);
    assert(is_out_of_range([] { signed_set{{INT64_MIN, 0}}; }) && is_out_of_range([] { unsigned_set{{0, UINT64_MAX}}; }));
}

static void searches() {
    const signed_set a{{6, 10}, {1, 2}}, none;
    assert(a.contains(2) && !a.contains(3) && a.next_from(3) == 6 && !a.next_from(11));
    assert(a.previous_to(5) == 2 && !a.previous_to(0) && a.run_at(7)->upper == 10 && !a.run_at(3) && !none.run_at(0));
    assert(a.rank(8) == 4 && a.rank(99) == 7 && a.nth(2) == 6 && !a.nth(99) && a.first() == 1 && a.last() == 10 && !none.first());
    assert(a.first_fit(3)->lower == 6 && !a.first_fit(6) && !a.first_fit(0));
}

// No result is lost: what does not fit is an error, but for the forms that leave it out.
static void arithmetic() {
    const signed_set a{{1, 2}}, ten{{10, 10}}, high{{INT64_MAX - 1, INT64_MAX}};
    assert(a.sums(ten) == signed_set({{11, 12}}) && a.products(ten) == signed_set({{10, 20}}) && a.sums(signed_set{}).empty());
    assert(unsigned_set({{3, 5}}).differences(unsigned_set{{3, 3}}) == unsigned_set({{0, 2}}));
    assert(is_out_of_range([&] { (void)a.sums(high); }) && is_out_of_range([&] { (void)a.differences(~signed_set{}); }));
    assert(is_out_of_range([&] { (void)unsigned_set({{0, 5}}).differences(unsigned_set{{3, 3}}); }));
    assert(is_out_of_range([&] { (void)high.products(signed_set{{2, 2}}); }));
    assert(a.sums_within(high) == signed_set({{INT64_MAX, INT64_MAX}}));
    assert(unsigned_set({{0, 5}}).differences_within(unsigned_set{{3, 3}}) == unsigned_set({{0, 2}}));
    using bytes = ivl::set<unsigned char>;
    assert(is_out_of_range([] { (void)bytes{{200, 255}}.sums(bytes{{1, 1}}); }));
    assert(bytes({{200, 255}}).sums_within(bytes{{1, 1}}) == bytes({{201, 255}}));
    assert(is_out_of_range([] { (void)bytes{{200, 255}}.products(bytes{{2, 2}}); }) && (~bytes{}).member_count() == 256);
}

static void edits() {
    ivl::set<int> a;
    assert(a.insert(5) && !a.insert(5) && a.insert({7, 9}) && a.insert(6) && a.size() == 1 && !a.insert({9, 1}));
    assert(a.erase(6) && !a.erase(6) && a.erase({8, 99}) && a == ivl::set<int>({{5, 5}, {7, 7}}));
    signed_set b;
    assert(is_out_of_range([&] { b.insert(INT64_MIN); }) && b.empty() && !b.erase(INT64_MIN) && b.insert({-INT64_MAX, INT64_MAX}));
    std::ostringstream to;
    to << a << ' ' << b << ' ' << ivl::set<signed char>{} << ' ' << ivl::set<signed char>{{-1, 65}};
    assert(to.str() == "{[5..5][7..7]} [-9223372036854775807..9223372036854775807] {} [-1..65]");
}

// What code of the standard library asks of a range, and of a key.
static void as_a_range() {
    const std::vector<int> numbers{9, 1, 2, 8, 2};
    const ivl::set<int> a(numbers), same(numbers.begin(), numbers.end());
    assert(a == same && std::size(a) == 2 && std::distance(a.begin(), a.end()) == 2 && a[1] == (ivl::run<int>{8, 9}));
    const auto members = a.members();
    assert(std::vector<int>(members.begin(), members.end()) == (std::vector<int>{1, 2, 8, 9}));
    assert(*std::prev(members.end()) == 9 && std::count_if(members.begin(), members.end(), [](int m) { return m % 2; }) == 2);
    std::vector<ivl::run<int>> backwards(a.rbegin(), a.rend());
    assert(backwards[0].lower == 8 && ivl::set<int>(backwards) == a);
    std::unordered_set<ivl::set<int>> seen{a, same, {}};
    std::map<ivl::set<int>, int> names{{a, 1}, {{}, 2}, {{{1, 1}}, 3}};
    assert(seen.size() == 2 && names.size() == 3 && names.begin()->second == 2 && ivl::set<int>({{1, 1}}) < a && !(a < same));
    std::uint64_t count = 0;
    for (auto [lower, upper] : a)
        count += static_cast<std::uint64_t>(upper - lower + 1);
    assert(count == a.member_count());
}

int main() {
    merges();
    searches();
    arithmetic();
    edits();
    as_a_range();
    std::puts("the sets of C++ agree");
    return 0;
}
