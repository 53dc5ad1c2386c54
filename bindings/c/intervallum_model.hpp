// Models to solve, for C++17, over the handles of intervallum_handles.h, which the library that Cargo builds has.
//
//     ivl::model<int> day;
//     auto a = day.variable({9, 14}), b = day.variable({9, 15});      // when two talks begin, of 2 hours and of 1
//     day.no_overlap({{a, 2}, {b, 1}});
//     for (const auto &solution : day.solutions())
//         std::cout << solution[a] << ' ' << solution[b] << '\n';
//     if (auto best = day.minimize(b).solution)
//         std::cout << (*best)[b] << '\n';
//
// Each search is one call of the proved search: its solutions are such, none is found twice, and they are all if no limit ended
// it; the best one has no better. A variable of no model throws std::out_of_range, one that stands twice in a rule
// std::invalid_argument, a number outside the range std::out_of_range, a failed allocation std::bad_alloc; then nothing is changed.
#ifndef INTERVALLUM_MODEL_HPP
#define INTERVALLUM_MODEL_HPP

#include "intervallum.hpp"
#include "intervallum_handle_calls.hpp"

#include <cstdint>
#include <limits>
#include <memory>
#include <optional>
#include <stdexcept>
#include <utility>
#include <vector>

namespace ivl {

// A variable of a model: its index, from 0 in the order in which the variables were added.
struct variable {
    std::int64_t index;

    [[nodiscard]] friend constexpr bool operator==(variable a, variable b) noexcept { return a.index == b.index; }
    [[nodiscard]] friend constexpr bool operator!=(variable a, variable b) noexcept { return a.index != b.index; }
};

// A task that begins at the number of a variable, and how long it is.
struct task {
    variable begins;
    std::uint64_t length;
};

// How far a search goes: to so many solutions, and through so many nodes of its tree. A node is a choice, or a part of the narrowing
// between two choices.
struct limits {
    std::uint64_t solutions = std::numeric_limits<std::uint64_t>::max();
    std::uint64_t nodes = 1'000'000;
};

// Why a search ended: all solutions were found, or as many as its limits allow, or as many nodes were visited.
enum class search_end { all = IVL_ALL, solutions = IVL_MOST_SOLUTIONS, nodes = IVL_MOST_NODES };

// What a search throws that was told to stop.
struct search_stopped : std::runtime_error {
    search_stopped() : runtime_error("ivl: the search was told to stop") {}
};

// A number for each variable of a model.
template <class T> class solution {
    std::vector<T> numbers_;

  public:
    explicit solution(std::vector<T> numbers) noexcept : numbers_(std::move(numbers)) {}
    [[nodiscard]] T operator[](variable x) const { return numbers_.at(static_cast<std::size_t>(x.index)); }
    // The numbers of all variables, in the order in which these were added.
    [[nodiscard]] const std::vector<T> &numbers() const noexcept { return numbers_; }
    [[nodiscard]] friend bool operator==(const solution &a, const solution &b) noexcept { return a.numbers_ == b.numbers_; }
    [[nodiscard]] friend bool operator!=(const solution &a, const solution &b) noexcept { return !(a == b); }
};

// The solutions that a search found, and why it ended.
template <class T> class solutions_of {
    std::vector<solution<T>> solutions_;
    search_end ended_by_;

  public:
    using value_type = solution<T>;
    using iterator = typename std::vector<solution<T>>::const_iterator;
    using const_iterator = iterator;

    solutions_of(std::vector<solution<T>> solutions, search_end ended_by) noexcept : solutions_(std::move(solutions)), ended_by_(ended_by) {}
    [[nodiscard]] iterator begin() const noexcept { return solutions_.begin(); }
    [[nodiscard]] iterator end() const noexcept { return solutions_.end(); }
    [[nodiscard]] std::size_t size() const noexcept { return solutions_.size(); }
    [[nodiscard]] bool empty() const noexcept { return solutions_.empty(); }
    [[nodiscard]] const solution<T> &operator[](std::size_t i) const noexcept { return solutions_[i]; }
    [[nodiscard]] search_end ended_by() const noexcept { return ended_by_; }
    // Whether these are all solutions.
    [[nodiscard]] bool are_all() const noexcept { return ended_by_ == search_end::all; }
};

// How many solutions a search found, and why it ended.
struct solution_count {
    std::uint64_t count;
    search_end ended_by;
};

// The best solution, if there is one; or the best that was found until a limit ended the search.
template <class T> struct best_of {
    std::optional<ivl::solution<T>> solution;
    bool is_finished;
};

// Variables that have numbers of an integer type, and rules between them.
template <class T> class model {
    static_assert(detail::is_number<T>, "ivl::model<T>: T is signed char, short, int, long, long long, or one of their unsigned forms");
    using call = detail::handle_calls<std::is_signed_v<T>>;
    using number = typename call::number;

    template <auto end> struct ends {
        template <class Handle> void operator()(Handle *it) const noexcept { end(it); }
    };
    template <class Handle, auto end> using owned = std::unique_ptr<Handle, ends<end>>;
    owned<typename call::solver, call::solver_free> at_;

    static std::int64_t checked(std::int64_t told) {
        switch (told) {
        case IVL_STOPPED:
            throw search_stopped();
        case IVL_UNKNOWN_VARIABLE:
            throw std::out_of_range("ivl: a variable is none of the model");
        case IVL_SAME_VARIABLE:
            throw std::invalid_argument("ivl: a rule names a variable twice");
        case IVL_SUM_OUT_OF_RANGE:
            throw std::out_of_range("ivl: sums of the variables, or distances of the tasks, are outside the range");
        default:
            return static_cast<std::int64_t>(detail::checked(told));
        }
    }
    template <class Handle, auto end, class F, class... Values> static owned<Handle, end> made(F f, Values... values) {
        Handle *made = nullptr;
        checked(f(values..., &made));
        return owned<Handle, end>(made);
    }
    static std::vector<std::int64_t> indexes(const std::vector<ivl::variable> &variables) {
        std::vector<std::int64_t> made;
        for (ivl::variable x : variables)
            made.push_back(x.index);
        return made;
    }
    static ivl_limits c_limits(const limits &most) noexcept { return {most.solutions, most.nodes}; }
    static solution<T> solution_of(const std::vector<number> &numbers) { return solution<T>(std::vector<T>(numbers.begin(), numbers.end())); }
    template <class F, class... Values> best_of<T> best(F f, Values... values) const {
        std::vector<number> numbers(variable_count());
        std::int64_t told = f(at_.get(), values..., numbers.data(), numbers.size());
        if (told == IVL_UNFINISHED)
            return {std::nullopt, false};
        if (checked(told) == 0)
            return {std::nullopt, true};
        return {solution_of(numbers), told == 1};
    }

  public:
    model() : at_(made<typename call::solver, call::solver_free>(call::solver_new)) {}
    model(const model &other) : at_(made<typename call::solver, call::solver_free>(call::solver_clone, other.at_.get())) {}
    model(model &&) noexcept = default;
    model &operator=(const model &other) { return *this = model(other); }
    model &operator=(model &&) noexcept = default;

    // Adds a variable whose domain is a run or a set; or so many.
    ivl::variable variable(const run<T> &domain) { return variable(set<T>{domain}); }
    ivl::variable variable(const set<T> &domain) { return variables(1, domain).front(); }
    std::vector<ivl::variable> variables(std::size_t count, const run<T> &domain) { return variables(count, set<T>{domain}); }
    std::vector<ivl::variable> variables(std::size_t count, const set<T> &domain) {
        std::vector<ivl::variable> made(count);
        std::int64_t index = checked(call::solver_variables(at_.get(), count, domain.pairs(), domain.size()));
        for (ivl::variable &x : made)
            x.index = index++;
        return made;
    }
    [[nodiscard]] std::size_t variable_count() const {
        std::uint64_t count = 0;
        checked(call::solver_variable_count(at_.get(), &count));
        return static_cast<std::size_t>(count);
    }
    [[nodiscard]] set<T> domain(ivl::variable x) const {
        std::vector<typename call::pair> runs(static_cast<std::size_t>(checked(call::solver_domain(at_.get(), x.index, nullptr, 0))));
        checked(call::solver_domain(at_.get(), x.index, runs.data(), runs.size()));
        std::vector<run<T>> items;
        for (const auto &it : runs)
            items.push_back({static_cast<T>(it.lower), static_cast<T>(it.upper)});
        return set<T>(items);
    }
    // Removes what is not in a run or a set from the domain of a variable.
    void restrict(ivl::variable x, const run<T> &allowed) { restrict(x, set<T>{allowed}); }
    void restrict(ivl::variable x, const set<T> &allowed) {
        checked(call::solver_restrict(at_.get(), x.index, allowed.pairs(), allowed.size()));
    }

    // x + by <= y; x + by == y; x + by != y. The numbers are compared as such, also where x + by is no number of T.
    void at_most(ivl::variable x, std::int64_t by, ivl::variable y) { checked(call::solver_at_most(at_.get(), x.index, by, y.index)); }
    void equals(ivl::variable x, std::int64_t by, ivl::variable y) { checked(call::solver_equals(at_.get(), x.index, by, y.index)); }
    void differs(ivl::variable x, std::int64_t by, ivl::variable y) { checked(call::solver_differs(at_.get(), x.index, by, y.index)); }
    // No two have the same number.
    void all_different(const std::vector<ivl::variable> &variables) {
        auto all = indexes(variables);
        checked(call::solver_all_different(at_.get(), all.data(), all.size()));
    }
    // The numbers of the variables add up to that of `total`.
    void sum(const std::vector<ivl::variable> &variables, ivl::variable total) {
        auto all = indexes(variables);
        checked(call::solver_sum(at_.get(), all.data(), all.size(), total.index));
    }
    // Of each two tasks one begins when the other is over, or later.
    void no_overlap(const std::vector<task> &tasks) {
        std::vector<ivl_task> all;
        for (const task &it : tasks)
            all.push_back({it.begins.index, it.length});
        checked(call::solver_no_overlap(at_.get(), all.data(), all.size()));
    }

    // The solutions, none of them twice, in no order that is promised: all of them, unless a limit ends the search.
    [[nodiscard]] solutions_of<T> solutions(const limits &most = {}) const {
        const ivl_limits given = c_limits(most);
        auto found = made<typename call::solutions, call::solutions_free>(call::solver_solutions, at_.get(), &given);
        std::vector<number> numbers(variable_count());
        std::vector<solution<T>> all;
        for (std::uint64_t i = 0; checked(call::solutions_at(found.get(), i, numbers.data(), numbers.size())) == 1; ++i)
            all.push_back(solution_of(numbers));
        return {std::move(all), static_cast<search_end>(checked(call::solutions_end(found.get())))};
    }
    [[nodiscard]] solution_count count(const limits &most = {}) const {
        const ivl_limits given = c_limits(most);
        std::uint64_t count = 0;
        std::int64_t told = checked(call::solver_count(at_.get(), &given, &count));
        return {count, static_cast<search_end>(told)};
    }
    // Any solution, or one in which a variable has its least or its greatest number.
    [[nodiscard]] best_of<T> first(const limits &most = {}) const {
        const ivl_limits given = c_limits(most);
        return best(call::solver_first, &given);
    }
    [[nodiscard]] best_of<T> minimize(ivl::variable x, const limits &most = {}) const {
        const ivl_limits given = c_limits(most);
        return best(call::solver_minimize, x.index, &given);
    }
    [[nodiscard]] best_of<T> maximize(ivl::variable x, const limits &most = {}) const {
        const ivl_limits given = c_limits(most);
        return best(call::solver_maximize, x.index, &given);
    }
    // Lets searches throw search_stopped, those that other threads are in, and those that begin; or, if false, no longer. May be called
    // by any thread.
    void stop(bool stops = true) const noexcept { static_cast<void>(call::solver_stop(at_.get(), stops)); }
};

} // namespace ivl

#endif
