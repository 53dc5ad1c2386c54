// Models in C++17: what the solver finds beside all points, and what throws. Its last line is "the models of C++ agree".
#undef NDEBUG
#include "intervallum_model.hpp"

#include <cassert>
#include <cstdio>
#include <set>
#include <thread>

template <class Error, class F> static bool throws(F f) {
    try {
        f();
    } catch (const Error &) {
        return true;
    }
    return false;
}

template <class T> static void pairs(T low) {
    ivl::model<T> made;
    auto x = made.variable({low, static_cast<T>(low + 9)});
    auto y = made.variable(ivl::set<T>{{low, static_cast<T>(low + 2)}, {static_cast<T>(low + 7), static_cast<T>(low + 8)}});
    made.at_most(x, 2, y);
    made.differs(x, 4, y);
    std::set<std::vector<T>> expected, seen;
    for (T a = low; a <= low + 9; ++a)
        for (int b : {0, 1, 2, 7, 8})
            if (a + 2 <= low + b && a + 4 != low + b)
                expected.insert({a, static_cast<T>(low + b)});
    auto found = made.solutions();
    for (const auto &solution : found)
        assert(seen.insert(solution.numbers()).second && solution[x] == solution.numbers()[0]);
    assert(seen == expected && found.are_all() && found.size() == expected.size());
    assert(made.count().count == expected.size() && made.count({3}).ended_by == ivl::search_end::solutions);
    auto [best, is_finished] = made.maximize(x);
    assert(best && is_finished && (*best)[x] == low + 6 && (*best)[y] == low + 8);
    assert((*made.minimize(y).solution)[y] == low + 2 && made.first().solution);
    assert(!made.first({1, 0}).solution && !made.first({1, 0}).is_finished);
    auto copy = made;
    copy.restrict(y, {low, static_cast<T>(low + 1)});
    assert(!copy.first().solution && copy.first().is_finished && made.first().solution && copy.domain(y).member_count() == 2);
}

int main() {
    pairs<int>(-5);
    pairs<unsigned char>(3);
    pairs<signed char>(-128);
    pairs<long long>(ivl::set<long long>::lowest());
    pairs<unsigned long>(0);

    ivl::model<int> square;
    auto cells = square.variables(9, {1, 9});
    auto fifteen = square.variable({15, 15});
    square.all_different(cells);
    for (auto line : {std::vector{0, 1, 2}, {3, 4, 5}, {6, 7, 8}, {0, 3, 6}, {1, 4, 7}, {2, 5, 8}, {0, 4, 8}, {2, 4, 6}})
        square.sum({cells[line[0]], cells[line[1]], cells[line[2]]}, fifteen);
    auto squares = square.solutions();
    assert(squares.size() == 8 && squares.are_all() && squares[0][cells[4]] == 5);

    ivl::model<int> day;
    auto a = day.variable({9, 14}), b = day.variable({9, 15}), c = day.variable({9, 13}), lunch = day.variable({12, 12});
    day.no_overlap({{a, 2}, {b, 1}, {c, 3}, {lunch, 1}});
    day.at_most(a, 2, b);
    auto first = day.minimize(b).solution;
    assert(day.solutions().size() == 2 && first && (*first)[a] == 9 && (*first)[b] == 11 && (*first)[c] == 13);
    assert(throws<std::out_of_range>([&] { day.at_most(a, 0, ivl::variable{9}); }) && throws<std::invalid_argument>([&] { day.differs(a, 0, a); }));
    assert(throws<std::invalid_argument>([&] { day.sum({a, a}, b); }) && throws<std::out_of_range>([&] { static_cast<void>(day.minimize({-1})); }));
    ivl::model<long> whole;
    auto far = whole.variables(2, ivl::set<long>::whole());
    assert(throws<std::out_of_range>([&] { whole.no_overlap({{far[0], 1}, {far[1], 1}}); }));

    ivl::model<int> endless;
    endless.all_different(endless.variables(20, {1, 20}));
    bool is_stopped = false;
    std::thread searching([&] { is_stopped = throws<ivl::search_stopped>([&] { static_cast<void>(endless.count({~0ull, ~0ull})); }); });
    endless.stop();
    searching.join();
    endless.stop(false);
    assert(is_stopped && endless.first().solution);
    std::puts("the models of C++ agree");
    return 0;
}
