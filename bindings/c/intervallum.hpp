// Sets of whole numbers for C++17, over the calls of intervallum.h. The answer of each of these calls is proved; what this header
// computes itself is tested.
//
//     ivl::set<int> free{{8, 11}, {12, 13}};
//     free.erase(9);
//     for (auto [lower, upper] : free) std::cout << lower << ".." << upper << '\n';    // 8..8, 10..13
//     for (int member : free.members()) std::cout << member << ' ';                    // 8 10 11 12 13
//
// `ivl::set<T>` is a range of its runs, the longest intervals of its members, ascending: `size()` is their number, and
// `member_count()` that of the members. T is one of the ten integer types. A set of 64 bits lacks one number, INT64_MIN or
// UINT64_MAX. A number outside the range throws std::out_of_range, a failed allocation std::bad_alloc; then nothing is changed.
#ifndef INTERVALLUM_HPP
#define INTERVALLUM_HPP

#if __cplusplus < 201703L && (!defined(_MSVC_LANG) || _MSVC_LANG < 201703L)
#error "intervallum.hpp is written in C++17: compile with -std=c++17 or later"
#endif

#include "intervallum.h"

#include <algorithm>
#include <cstddef>
#include <cstdint>
#include <functional>
#include <initializer_list>
#include <iterator>
#include <limits>
#include <memory>
#include <new>
#include <optional>
#include <ostream>
#include <stdexcept>
#include <type_traits>
#include <utility>
#include <vector>
#if defined(__has_include)
#if __has_include(<version>)
#include <version>
#endif
#endif
#ifdef __cpp_lib_three_way_comparison
#include <compare>
#endif
#ifdef __cpp_lib_ranges
#include <ranges>
#endif

namespace ivl {

// The numbers from `lower` to `upper`, both included.
template <class T> struct run {
    T lower;
    T upper;

    [[nodiscard]] constexpr std::uint64_t member_count() const noexcept {
        return lower <= upper ? static_cast<std::uint64_t>(upper) - static_cast<std::uint64_t>(lower) + 1 : 0;
    }
    [[nodiscard]] friend constexpr bool operator==(const run &a, const run &b) noexcept {
        return a.lower == b.lower && a.upper == b.upper;
    }
    [[nodiscard]] friend constexpr bool operator!=(const run &a, const run &b) noexcept { return !(a == b); }
};

namespace detail {

template <class T, class... Types> inline constexpr bool is_one_of = (std::is_same_v<T, Types> || ...);
template <class T>
inline constexpr bool is_number = is_one_of<T, signed char, short, int, long, long long, unsigned char, unsigned short, unsigned,
                                            unsigned long, unsigned long long>;

// The calls of one type of bounds. None of them is the checked form of IVL_CHECKED, so that each file has the same.
template <bool is_signed> struct calls;

#define IVL_CALLS(is_signed, type, name)                                                                                         \
    template <> struct calls<is_signed> {                                                                                        \
        using number = type;                                                                                                     \
        using pair = ivl_pair_##name;                                                                                            \
        static constexpr auto normalize = ivl_normalize_##name;                                                                  \
        static constexpr auto complement = ivl_complement_##name;                                                                \
        static constexpr auto unite = ivl_union_##name;                                                                          \
        static constexpr auto intersection = ivl_intersection_##name;                                                            \
        static constexpr auto difference = ivl_difference_##name;                                                                \
        static constexpr auto symmetric_difference = ivl_symmetric_difference_##name;                                            \
        static constexpr auto sums = ivl_sums_within_##name;                                                                     \
        static constexpr auto differences = ivl_differences_within_##name;                                                       \
        static constexpr auto products = ivl_products_##name;                                                                    \
        static constexpr auto is_subset = ivl_is_subset_##name;                                                                  \
        static constexpr auto overlap = ivl_overlap_##name;                                                                      \
        static constexpr auto contains = ivl_contains_sorted_##name;                                                             \
        static constexpr auto next_from = ivl_next_from_sorted_##name;                                                           \
        static constexpr auto previous_to = ivl_previous_to_sorted_##name;                                                       \
        static constexpr auto run_at = ivl_run_at_sorted_##name;                                                                 \
    }
IVL_CALLS(true, std::int64_t, i64);
IVL_CALLS(false, std::uint64_t, u64);
#undef IVL_CALLS

inline std::size_t checked(std::int64_t told) {
    if (told == IVL_OUT_OF_MEMORY)
        throw std::bad_alloc();
    if (told == IVL_PRODUCT_OUT_OF_RANGE)
        throw std::out_of_range("ivl: a product is outside the range");
    if (told < 0)
        throw std::out_of_range("ivl: a member is outside the range");
    return static_cast<std::size_t>(told);
}

// Leaves what a vector makes room for as it is, for it is written next.
template <class P> struct unfilled : std::allocator<P> {
    template <class U> struct rebind {
        using other = unfilled<U>;
    };
    unfilled() = default;
    template <class U> unfilled(const unfilled<U> &) noexcept {}
    template <class U> void construct(U *place) noexcept { ::new (static_cast<void *>(place)) U; }
    template <class U, class... Values> void construct(U *place, Values &&...values) {
        ::new (static_cast<void *>(place)) U{std::forward<Values>(values)...};
    }
};

// Steps over runs. They are made of the pairs of the set, so that `*it` is a value.
template <class T, class Pair> class run_iterator {
    const Pair *at_ = nullptr;

    struct arrow {
        run<T> held;
        const run<T> *operator->() const noexcept { return &held; }
    };

  public:
    using value_type = run<T>;
    using reference = run<T>;
    using pointer = arrow;
    using difference_type = std::ptrdiff_t;
    using iterator_category = std::random_access_iterator_tag;

    run_iterator() = default;
    explicit run_iterator(const Pair *at) noexcept : at_(at) {}

    [[nodiscard]] reference operator*() const noexcept { return {static_cast<T>(at_->lower), static_cast<T>(at_->upper)}; }
    [[nodiscard]] pointer operator->() const noexcept { return {**this}; }
    [[nodiscard]] reference operator[](difference_type n) const noexcept { return *(*this + n); }
    run_iterator &operator++() noexcept { return ++at_, *this; }
    run_iterator &operator--() noexcept { return --at_, *this; }
    run_iterator operator++(int) noexcept { return run_iterator(at_++); }
    run_iterator operator--(int) noexcept { return run_iterator(at_--); }
    run_iterator &operator+=(difference_type n) noexcept { return at_ += n, *this; }
    run_iterator &operator-=(difference_type n) noexcept { return at_ -= n, *this; }
    [[nodiscard]] friend run_iterator operator+(run_iterator a, difference_type n) noexcept { return a += n; }
    [[nodiscard]] friend run_iterator operator+(difference_type n, run_iterator a) noexcept { return a += n; }
    [[nodiscard]] friend run_iterator operator-(run_iterator a, difference_type n) noexcept { return a -= n; }
    [[nodiscard]] friend difference_type operator-(run_iterator a, run_iterator b) noexcept { return a.at_ - b.at_; }
    [[nodiscard]] friend bool operator==(run_iterator a, run_iterator b) noexcept { return a.at_ == b.at_; }
    [[nodiscard]] friend bool operator!=(run_iterator a, run_iterator b) noexcept { return a.at_ != b.at_; }
    [[nodiscard]] friend bool operator<(run_iterator a, run_iterator b) noexcept { return a.at_ < b.at_; }
    [[nodiscard]] friend bool operator>(run_iterator a, run_iterator b) noexcept { return b < a; }
    [[nodiscard]] friend bool operator<=(run_iterator a, run_iterator b) noexcept { return !(b < a); }
    [[nodiscard]] friend bool operator>=(run_iterator a, run_iterator b) noexcept { return !(a < b); }
};

// Steps over members. `last_` is where the runs end.
template <class T, class Pair> class member_iterator {
    const Pair *at_ = nullptr, *last_ = nullptr;
    T member_ = T();

    void begin_run() noexcept { member_ = at_ == last_ ? T() : static_cast<T>(at_->lower); }

  public:
    using value_type = T;
    using reference = T;
    using pointer = void;
    using difference_type = std::ptrdiff_t;
    using iterator_category = std::bidirectional_iterator_tag;

    member_iterator() = default;
    member_iterator(const Pair *at, const Pair *last) noexcept : at_(at), last_(last) { begin_run(); }

    [[nodiscard]] T operator*() const noexcept { return member_; }
    member_iterator &operator++() noexcept {
        if (member_ == static_cast<T>(at_->upper)) {
            ++at_;
            begin_run();
        } else {
            ++member_;
        }
        return *this;
    }
    member_iterator &operator--() noexcept {
        if (at_ == last_ || member_ == static_cast<T>(at_->lower)) {
            --at_;
            member_ = static_cast<T>(at_->upper);
        } else {
            --member_;
        }
        return *this;
    }
    member_iterator operator++(int) noexcept {
        auto before = *this;
        ++*this;
        return before;
    }
    member_iterator operator--(int) noexcept {
        auto before = *this;
        --*this;
        return before;
    }
    [[nodiscard]] friend bool operator==(const member_iterator &a, const member_iterator &b) noexcept {
        return a.at_ == b.at_ && a.member_ == b.member_;
    }
    [[nodiscard]] friend bool operator!=(const member_iterator &a, const member_iterator &b) noexcept { return !(a == b); }
};

} // namespace detail

// The members of a set, ascending, as long as the set is there and unchanged.
template <class T, class Pair> class members_of {
    const Pair *first_ = nullptr, *last_ = nullptr;

  public:
    using value_type = T;
    using iterator = detail::member_iterator<T, Pair>;
    using const_iterator = iterator;

    members_of() = default;
    members_of(const Pair *first, const Pair *last) noexcept : first_(first), last_(last) {}
    [[nodiscard]] iterator begin() const noexcept { return {first_, last_}; }
    [[nodiscard]] iterator end() const noexcept { return {last_, last_}; }
    [[nodiscard]] bool empty() const noexcept { return first_ == last_; }
};

// A set of numbers of an integer type, as the list of its runs. Merges take a pass over both sets, searches are logarithmic, and
// an edit moves the runs behind it.
template <class T> class set {
    static_assert(detail::is_number<T>, "ivl::set<T>: T is signed char, short, int, long, long long, or one of their unsigned forms");
    using call = detail::calls<std::is_signed_v<T>>;
    using number = typename call::number;
    static constexpr bool is_widest = sizeof(T) == sizeof(number);

  public:
    using value_type = run<T>;
    using reference = value_type;
    using const_reference = value_type;
    using size_type = std::size_t;
    using difference_type = std::ptrdiff_t;
    using pair = typename call::pair; // of intervallum.h
    using iterator = detail::run_iterator<T, pair>;
    using const_iterator = iterator;
    using reverse_iterator = std::reverse_iterator<iterator>;
    using const_reverse_iterator = reverse_iterator;
    using members_view = members_of<T, pair>;

  private:
    std::vector<pair, detail::unfilled<pair>> runs_;

    static pair pair_of(const run<T> &it) noexcept { return {it.lower, it.upper}; }
    const pair *at() const noexcept { return runs_.data(); }
    const pair *past() const noexcept { return runs_.data() + runs_.size(); }

    // Calls with room for so many runs, and once more with the room that the call asks for.
    template <class F, class... Lists> static set made(std::size_t room, F f, Lists... lists) {
        set result;
        for (;;) {
            result.runs_.resize(room);
            std::size_t count = detail::checked(f(lists..., result.runs_.data(), room));
            if (count <= room) {
                result.runs_.resize(count);
                return result;
            }
            room = count;
        }
    }
    template <class F> set with(F f, const set &other) const {
        return made(runs_.size() + other.runs_.size(), f, at(), runs_.size(), other.at(), other.runs_.size());
    }
    static set of_pairs(const std::vector<pair> &pairs) {
        return made(pairs.size(), call::normalize, pairs.data(), pairs.size());
    }
    static pair item(const run<T> &it) noexcept { return pair_of(it); }
    static pair item(T member) noexcept { return {member, member}; }
    template <class It, class End> static set of_items(It first, End last) {
        std::vector<pair> pairs;
        for (; first != last; ++first)
            pairs.push_back(item(*first));
        return of_pairs(pairs);
    }
    static void is_within(const run<T> &it) {
        if (it.lower < lowest() || highest() < it.upper)
            throw std::out_of_range("ivl: a member is outside the range");
    }
    // Where the runs begin that end at a number or above, and those that begin above one.
    typename decltype(runs_)::iterator ending_from(number v) noexcept {
        return std::partition_point(runs_.begin(), runs_.end(), [v](const pair &it) { return it.upper < v; });
    }
    typename decltype(runs_)::iterator beginning_above(number v) noexcept {
        return std::partition_point(runs_.begin(), runs_.end(), [v](const pair &it) { return it.lower <= v; });
    }
    // Whether x + y lies in the range, for the ends of both sets.
    static bool sums_fit(const pair &x, const pair &y) noexcept {
        const number low = lowest(), high = highest();
        if constexpr (std::is_signed_v<T>)
            return (y.lower >= 0 || x.lower >= low - y.lower) && (y.upper <= 0 || x.upper <= high - y.upper);
        else
            return y.upper <= high && x.upper <= high - y.upper;
    }
    static bool differences_fit(const pair &x, const pair &y) noexcept {
        const number low = lowest(), high = highest();
        if constexpr (std::is_signed_v<T>)
            return (y.upper <= 0 || x.lower >= low + y.upper) && (y.lower >= 0 || x.upper <= high + y.lower);
        else
            return x.lower >= y.upper;
    }
    pair ends() const noexcept { return {runs_.front().lower, runs_.back().upper}; }
    // The part in the range, which is all of a set of 64 bits.
    set in_range() const { return is_widest ? *this : *this & whole(); }

  public:
    // The least and the greatest number that a set can hold.
    [[nodiscard]] static constexpr T lowest() noexcept {
        return is_widest && std::is_signed_v<T> ? static_cast<T>(-std::numeric_limits<T>::max()) : std::numeric_limits<T>::min();
    }
    [[nodiscard]] static constexpr T highest() noexcept {
        return is_widest && !std::is_signed_v<T> ? static_cast<T>(std::numeric_limits<T>::max() - 1) : std::numeric_limits<T>::max();
    }

    set() = default;
    // The members of runs in any order, which may overlap; a crossed one adds nothing.
    set(std::initializer_list<run<T>> runs) : set(of_items(runs.begin(), runs.end())) {}
    // The same of numbers or runs: of a vector, a view, or two iterators.
    template <class It, class End, class = typename std::iterator_traits<It>::value_type>
    set(It first, End last) : set(of_items(first, last)) {}
    template <class Range, class = decltype(item(*std::begin(std::declval<const Range &>()))),
              class = std::enable_if_t<!std::is_same_v<Range, set>>>
    explicit set(const Range &items) : set(of_items(std::begin(items), std::end(items))) {}
    // The numbers from `lower` to `upper`.
    [[nodiscard]] static set of(T lower, T upper) { return set{{lower, upper}}; }
    // All numbers of the range.
    [[nodiscard]] static set whole() { return of(lowest(), highest()); }

    // The runs, ascending.
    [[nodiscard]] iterator begin() const noexcept { return iterator(at()); }
    [[nodiscard]] iterator end() const noexcept { return iterator(past()); }
    [[nodiscard]] iterator cbegin() const noexcept { return begin(); }
    [[nodiscard]] iterator cend() const noexcept { return end(); }
    [[nodiscard]] reverse_iterator rbegin() const noexcept { return reverse_iterator(end()); }
    [[nodiscard]] reverse_iterator rend() const noexcept { return reverse_iterator(begin()); }
    [[nodiscard]] size_type size() const noexcept { return runs_.size(); }
    [[nodiscard]] bool empty() const noexcept { return runs_.empty(); }
    [[nodiscard]] run<T> front() const noexcept { return *begin(); }
    [[nodiscard]] run<T> back() const noexcept { return *--end(); }
    [[nodiscard]] run<T> operator[](size_type i) const noexcept { return begin()[static_cast<difference_type>(i)]; }
    // The runs as a call of intervallum.h takes them: a pointer to size() pairs.
    [[nodiscard]] const pair *pairs() const noexcept { return at(); }

    // The members, ascending. A set that is about to end has none to give.
    [[nodiscard]] members_view members() const &noexcept { return {at(), past()}; }
    members_view members() const && = delete;
    // The number of members, by a pass over the runs.
    [[nodiscard]] std::uint64_t member_count() const noexcept { return count_of(runs_.size()); }
    [[nodiscard]] std::optional<T> first() const noexcept { return empty() ? std::nullopt : std::optional<T>(front().lower); }
    [[nodiscard]] std::optional<T> last() const noexcept { return empty() ? std::nullopt : std::optional<T>(back().upper); }

    [[nodiscard]] friend set operator|(const set &a, const set &b) { return a.with(call::unite, b); }
    [[nodiscard]] friend set operator&(const set &a, const set &b) { return a.with(call::intersection, b); }
    [[nodiscard]] friend set operator-(const set &a, const set &b) { return a.with(call::difference, b); }
    [[nodiscard]] friend set operator^(const set &a, const set &b) { return a.with(call::symmetric_difference, b); }
    [[nodiscard]] set operator~() const {
        if constexpr (is_widest)
            return made(runs_.size() + 1, call::complement, at(), runs_.size());
        else
            return whole() - *this;
    }
    set &operator|=(const set &other) { return *this = *this | other; }
    set &operator&=(const set &other) { return *this = *this & other; }
    set &operator-=(const set &other) { return *this = *this - other; }
    set &operator^=(const set &other) { return *this = *this ^ other; }
    // The members from `lower` to `upper`, and the other numbers there.
    [[nodiscard]] set within(T lower, T upper) const { return *this & of(lower, upper); }
    [[nodiscard]] set gaps_within(T lower, T upper) const { return of(lower, upper) - *this; }

    // The sums or differences of a member of each; std::out_of_range if one of them is outside the range. The `_within` forms
    // leave such out.
    [[nodiscard]] set sums(const set &other) const {
        if (!empty() && !other.empty() && !sums_fit(ends(), other.ends()))
            throw std::out_of_range("ivl: a sum is outside the range");
        return with(call::sums, other);
    }
    [[nodiscard]] set differences(const set &other) const {
        if (!empty() && !other.empty() && !differences_fit(ends(), other.ends()))
            throw std::out_of_range("ivl: a difference is outside the range");
        return with(call::differences, other);
    }
    [[nodiscard]] set sums_within(const set &other) const { return with(call::sums, other).in_range(); }
    [[nodiscard]] set differences_within(const set &other) const { return with(call::differences, other).in_range(); }
    // For each run of either, the numbers from their least to their greatest product: {[1..2]} times {[10..10]} is {[10..20]}.
    // std::out_of_range if a product is outside the range.
    [[nodiscard]] set products(const set &other) const {
        set result = with(call::products, other);
        if (!result.empty() && (result.ends().lower < number(lowest()) || number(highest()) < result.ends().upper))
            throw std::out_of_range("ivl: a product is outside the range");
        return result;
    }

    // Adds a number or a run; whether a member is new.
    bool insert(T member) { return insert(run<T>{member, member}); }
    bool insert(const run<T> &added) {
        if (added.upper < added.lower)
            return false;
        is_within(added);
        pair it = pair_of(added);
        // a run that only touches the new one joins it, too
        auto first = it.lower == number(lowest()) ? runs_.begin() : ending_from(it.lower - 1);
        auto last = it.upper == number(highest()) ? runs_.end() : beginning_above(it.upper + 1);
        if (first == last) {
            runs_.insert(first, it);
            return true;
        }
        it.lower = std::min(it.lower, first->lower);
        it.upper = std::max(it.upper, std::prev(last)->upper);
        if (last - first == 1 && it.lower == first->lower && it.upper == first->upper)
            return false;
        *first = it;
        runs_.erase(std::next(first), last);
        return true;
    }
    // Removes a number or the members of a run; whether there was one.
    bool erase(T member) { return erase(run<T>{member, member}); }
    bool erase(const run<T> &removed) {
        if (removed.upper < removed.lower)
            return false;
        const pair it = pair_of(removed);
        auto first = ending_from(it.lower), last = beginning_above(it.upper);
        if (first == last)
            return false;
        // what is left of the first run and of the last, which may be one
        const bool is_before = first->lower < it.lower, is_after = it.upper < std::prev(last)->upper;
        if (is_before && is_after && last - first == 1) {
            first = runs_.insert(first, *first);
            last = first + 2;
        }
        if (is_before)
            (first++)->upper = it.lower - 1;
        if (is_after)
            (--last)->lower = it.upper + 1;
        runs_.erase(first, last);
        return true;
    }
    void clear() noexcept { runs_.clear(); }
    void swap(set &other) noexcept { runs_.swap(other.runs_); }
    friend void swap(set &a, set &b) noexcept { a.swap(b); }

    [[nodiscard]] bool is_subset(const set &other) const {
        return detail::checked(call::is_subset(at(), runs_.size(), other.at(), other.runs_.size())) == 1;
    }
    [[nodiscard]] bool overlaps(const set &other) const {
        return detail::checked(call::overlap(at(), runs_.size(), other.at(), other.runs_.size())) == 1;
    }
    [[nodiscard]] bool contains(T v) const noexcept { return call::contains(at(), runs_.size(), v); }
    // The least member that is at least `v`.
    [[nodiscard]] std::optional<T> next_from(T v) const noexcept {
        number found{};
        return call::next_from(at(), runs_.size(), v, &found) ? std::optional<T>(static_cast<T>(found)) : std::nullopt;
    }
    // The greatest member that is at most `v`.
    [[nodiscard]] std::optional<T> previous_to(T v) const noexcept {
        number found{};
        return call::previous_to(at(), runs_.size(), v, &found) ? std::optional<T>(static_cast<T>(found)) : std::nullopt;
    }
    // The run that holds `v`.
    [[nodiscard]] std::optional<run<T>> run_at(T v) const noexcept {
        pair found{};
        return call::run_at(at(), runs_.size(), v, &found) ? std::optional<run<T>>(*iterator(&found)) : std::nullopt;
    }
    // The number of members below `v`, by a pass over the runs below it.
    [[nodiscard]] std::uint64_t rank(T v) const noexcept {
        auto above = std::partition_point(begin(), end(), [v](const run<T> &it) { return it.upper < v; });
        auto below = count_of(static_cast<std::size_t>(above - begin()));
        if (above == end() || !((*above).lower < v))
            return below;
        return below + static_cast<std::uint64_t>(v) - static_cast<std::uint64_t>((*above).lower);
    }
    // The member with exactly `i` members below it, by a pass over the runs up to it.
    [[nodiscard]] std::optional<T> nth(std::uint64_t i) const noexcept {
        for (const run<T> it : *this) {
            if (i < it.member_count())
                return static_cast<T>(static_cast<std::uint64_t>(it.lower) + i);
            i -= it.member_count();
        }
        return std::nullopt;
    }
    // The lowest `count` consecutive members, by a pass over the runs up to them.
    [[nodiscard]] std::optional<run<T>> first_fit(std::uint64_t count) const noexcept {
        auto fit = std::find_if(begin(), end(), [count](const run<T> &it) { return count <= it.member_count(); });
        if (count == 0 || fit == end())
            return std::nullopt;
        T lower = (*fit).lower;
        return run<T>{lower, static_cast<T>(static_cast<std::uint64_t>(lower) + count - 1)};
    }

    // Two sets with the same members have the same runs.
    [[nodiscard]] friend bool operator==(const set &a, const set &b) noexcept {
        return std::equal(a.begin(), a.end(), b.begin(), b.end());
    }
    [[nodiscard]] friend bool operator!=(const set &a, const set &b) noexcept { return !(a == b); }
    // Less than 0, 0 or more, by the members one after another, as sets of the standard library are compared.
    [[nodiscard]] int compare(const set &other) const noexcept {
        auto [mine, theirs] = std::mismatch(begin(), end(), other.begin(), other.end());
        const bool is_end = mine == end();
        if (is_end || theirs == other.end())
            return is_end ? (theirs == other.end() ? 0 : -1) : 1;
        if ((*mine).lower != (*theirs).lower)
            return (*mine).lower < (*theirs).lower ? -1 : 1;
        // the shorter run is followed by a greater member, or by none
        return (*mine).upper < (*theirs).upper ? (std::next(mine) == end() ? -1 : 1) : (std::next(theirs) == other.end() ? 1 : -1);
    }
#ifdef __cpp_lib_three_way_comparison
    [[nodiscard]] friend std::strong_ordering operator<=>(const set &a, const set &b) noexcept { return a.compare(b) <=> 0; }
#else
    [[nodiscard]] friend bool operator<(const set &a, const set &b) noexcept { return a.compare(b) < 0; }
    [[nodiscard]] friend bool operator>(const set &a, const set &b) noexcept { return a.compare(b) > 0; }
    [[nodiscard]] friend bool operator<=(const set &a, const set &b) noexcept { return a.compare(b) <= 0; }
    [[nodiscard]] friend bool operator>=(const set &a, const set &b) noexcept { return a.compare(b) >= 0; }
#endif

    // Writes {}, [1..5] or {[1..5][7..7]}.
    friend std::ostream &operator<<(std::ostream &to, const set &it) {
        const bool is_one = it.size() == 1;
        to << (is_one ? "" : "{");
        for (const run<T> one : it)
            to << '[' << +one.lower << ".." << +one.upper << ']';
        return to << (is_one ? "" : "}");
    }

  private:
    std::uint64_t count_of(std::size_t runs) const noexcept {
        std::uint64_t count = 0;
        for (std::size_t i = 0; i < runs; ++i)
            count += (*this)[i].member_count();
        return count;
    }
};

} // namespace ivl

template <class T> struct std::hash<ivl::set<T>> {
    [[nodiscard]] std::size_t operator()(const ivl::set<T> &it) const noexcept {
        std::uint64_t mixed = it.size();
        for (const ivl::run<T> one : it)
            for (const T bound : {one.lower, one.upper})
                mixed = (mixed ^ (mixed >> 29) ^ static_cast<std::uint64_t>(bound)) * 0x9e3779b97f4a7c15u;
        return static_cast<std::size_t>(mixed ^ (mixed >> 32));
    }
};

#ifdef __cpp_lib_ranges
template <class T, class Pair> inline constexpr bool std::ranges::enable_view<ivl::members_of<T, Pair>> = true;
template <class T, class Pair> inline constexpr bool std::ranges::enable_borrowed_range<ivl::members_of<T, Pair>> = true;
#endif

#endif
