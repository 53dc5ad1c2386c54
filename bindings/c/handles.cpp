// Sets and maps that change, in C++17, beside std::set and std::map. Its last line is "the handles of C++ agree".
#undef NDEBUG
#include "intervallum_handles.hpp"

#include <cassert>
#include <cstdio>
#include <map>
#include <random>
#include <set>
#include <sstream>
#include <string>

static std::mt19937_64 next;

template <class T> static void sets(T low) {
    ivl::paged_set<T> made, other{{static_cast<T>(low + 3), static_cast<T>(low + 40)}};
    std::set<T> plain;
    for (int i = 0; i < 2000; ++i) {
        T v = static_cast<T>(low + next() % 90);
        assert(next() % 3 ? made.insert(v) == plain.insert(v).second : made.erase(v) == (plain.erase(v) == 1));
        assert(made.contains(v) == (plain.count(v) == 1) && made.member_count() == plain.size());
    }
    auto list = made.to_set();
    assert(std::equal(list.begin(), list.end(), made.begin(), made.end()) && list.size() == made.size());
    assert(ivl::paged_set<T>(list) == made && (made | other).to_set() == (list | other.to_set()));
    assert((made & other).to_set() == (list & other.to_set()) && (made - other).to_set() == (list - other.to_set()));
    assert((made ^ other).to_set() == (list ^ other.to_set()) && (~made).to_set() == ~list && (made & other).is_subset(other));
    auto copy = made;
    copy |= other;
    assert(copy != made && copy.includes({static_cast<T>(low + 3), static_cast<T>(low + 40)}) && made.to_set() == list);
    copy -= copy;
    assert(copy.empty() && !copy.pop_first() && !copy.first_fit(1));
    T least = *plain.begin();
    assert(made.first() == least && made.rank(least) == 0 && made.nth(0) == least && made.next_from(low) == least);
    assert(made.pop_first() == least && !made.contains(least) && made.longest_run() && made.best_fit(1));
}

static void maps() {
    ivl::map<int, std::string> made;
    std::map<int, std::string> plain;
    const std::string names[] = {"anna", "bela", "cleo"};
    for (int i = 0; i < 2000; ++i) {
        int lower = static_cast<int>(next() % 80), upper = lower + static_cast<int>(next() % 9);
        const std::string &name = names[next() % 3];
        if (next() % 3) {
            made.insert({lower, upper}, name);
            for (int v = lower; v <= upper; ++v)
                plain[v] = name;
        } else {
            made.erase({lower, upper});
            plain.erase(plain.lower_bound(lower), plain.upper_bound(upper));
        }
        assert(made.number_count() == plain.size() && made.contains(lower) == (plain.count(lower) == 1));
        assert(made.contains(lower) ? *made.get(lower) == plain[lower] : made.get(lower) == nullptr);
    }
    std::map<int, std::string> seen;
    for (auto [numbers, name] : made)
        for (int v = numbers.lower; v <= numbers.upper; ++v)
            seen[v] = name;
    const auto copied = made;
    assert(seen == plain && copied == made);
    assert(made.keys().member_count() == plain.size() && made.numbers_with("dora").empty());
    ivl::map<int, std::string> moved = std::move(made);
    assert(moved.number_count() == plain.size() && !moved.insert_if_free({0, 99}, "dora") && moved.insert_if_free({200, 209}, "dora"));
    assert(moved.at(205) == "dora" && moved.entry_at(200)->numbers.upper == 209 && moved.first_fit({200, 299}, 5)->lower == 210);
    moved.clear();
    assert(moved.empty() && moved.begin() == moved.end() && !moved.first());
}

int main() {
    sets<int>(-20);
    sets<unsigned char>(166);
    sets<signed char>(-128);
    sets<long>(ivl::set<long>::lowest());
    sets<unsigned long long>(ivl::set<unsigned long long>::highest() - 89);
    maps();
    ivl::paged_set<int> free{{0, 99}};
    assert(free.take_first_fit(8) == (ivl::run<int>{0, 7}) && free.size() == 1);
    bool is_told = false;
    try {
        ivl::paged_set<long>().insert(std::numeric_limits<long>::min());
    } catch (const std::out_of_range &) {
        is_told = true;
    }
    std::ostringstream to;
    to << free;
    assert(is_told && to.str() == "[8..99]");
    std::puts("the handles of C++ agree");
    return 0;
}
