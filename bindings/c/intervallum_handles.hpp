// Sets and maps that change, for C++17, over the handles of intervallum_handles.h, which the library that Cargo builds has.
//
//     ivl::paged_set<int> free{{0, 99}};
//     auto taken = free.take_first_fit(8);                       // 0..7, in O(log n)
//     ivl::map<int, std::string> owner;
//     owner.insert({0, 7}, "anna");
//     for (auto [run, name] : owner) std::cout << run.lower << ".." << run.upper << ' ' << name << '\n';
//
// What is said of ivl::set in intervallum.hpp holds here, too: a set is a range of its runs, and a number outside the range throws
// std::out_of_range, a failed allocation std::bad_alloc; then nothing is changed. An iterator holds its run, so an edit
// invalidates none; the next step goes to what is there then. A set or map that was moved from may be assigned to or ended.
#ifndef INTERVALLUM_HANDLES_HPP
#define INTERVALLUM_HANDLES_HPP

#include "intervallum.hpp"
#include "intervallum_handle_calls.hpp"

#include <unordered_map>

namespace ivl {

namespace detail {

// Goes over what a call finds: the first thing that ends at a number or above.
template <class Owner, class Item> class stepping_iterator {
    const Owner *owner_ = nullptr;
    std::optional<Item> held_;

  public:
    using value_type = Item;
    using reference = const Item &;
    using pointer = const Item *;
    using difference_type = std::ptrdiff_t;
    using iterator_category = std::input_iterator_tag;

    stepping_iterator() = default;
    stepping_iterator(const Owner *owner, std::optional<Item> held) : owner_(owner), held_(std::move(held)) {}

    [[nodiscard]] reference operator*() const noexcept { return *held_; }
    [[nodiscard]] pointer operator->() const noexcept { return &*held_; }
    stepping_iterator &operator++() {
        held_ = owner_->after(*held_);
        return *this;
    }
    stepping_iterator operator++(int) {
        auto before = *this;
        ++*this;
        return before;
    }
    [[nodiscard]] friend bool operator==(const stepping_iterator &a, const stepping_iterator &b) noexcept { return a.held_ == b.held_; }
    [[nodiscard]] friend bool operator!=(const stepping_iterator &a, const stepping_iterator &b) noexcept { return !(a == b); }
};

} // namespace detail

template <class T, class V, class Hash, class Equal> class map;

// A set of numbers of an integer type, for many runs that change: each edit is O(log n).
template <class T> class paged_set {
    static_assert(detail::is_number<T>, "ivl::paged_set<T>: T is signed char, short, int, long, long long, or one of their unsigned forms");
    using call = detail::handle_calls<std::is_signed_v<T>>;
    using handle = typename call::set;
    using number = typename call::number;
    using pair = typename call::pair;
    friend class detail::stepping_iterator<paged_set, run<T>>;
    template <class, class, class, class> friend class map;

    struct ends {
        void operator()(handle *it) const noexcept { call::set_free(it); }
    };
    std::unique_ptr<handle, ends> at_;

    explicit paged_set(handle *at) noexcept : at_(at) {}
    template <class F, class... Values> static paged_set made(F f, Values... values) {
        handle *made = nullptr;
        detail::checked(f(values..., &made));
        return paged_set(made);
    }
    template <class F, class... Values> std::optional<T> number_of(F f, Values... values) const {
        number found{};
        return detail::checked(f(at_.get(), values..., &found)) ? std::optional<T>(static_cast<T>(found)) : std::nullopt;
    }
    static run<T> run_of(const pair &it) noexcept { return {static_cast<T>(it.lower), static_cast<T>(it.upper)}; }
    template <class F, class... Values> std::optional<run<T>> run_by(F f, Values... values) const {
        pair found{};
        return detail::checked(f(at_.get(), values..., &found)) ? std::optional<run<T>>(run_of(found)) : std::nullopt;
    }
    template <class F, class... Values> std::uint64_t size_of(F f, Values... values) const {
        std::uint64_t size = 0;
        detail::checked(f(at_.get(), values..., &size));
        return size;
    }
    std::optional<run<T>> after(const run<T> &it) const {
        return it.upper == set<T>::highest() ? std::nullopt : run_by(call::set_run_from, static_cast<number>(it.upper) + 1);
    }

  public:
    using value_type = run<T>;
    using reference = const value_type &;
    using const_reference = reference;
    using size_type = std::uint64_t;
    using difference_type = std::ptrdiff_t;
    using iterator = detail::stepping_iterator<paged_set, run<T>>;
    using const_iterator = iterator;

    paged_set() : paged_set(made(call::set_new)) {}
    paged_set(std::initializer_list<run<T>> runs) : paged_set(set<T>(runs)) {}
    explicit paged_set(const set<T> &members) : paged_set(made(call::set_of, members.pairs(), members.size())) {}
    paged_set(const paged_set &other) : paged_set(made(call::set_clone, other.at_.get())) {}
    paged_set(paged_set &&) noexcept = default;
    paged_set &operator=(const paged_set &other) { return *this = paged_set(other); }
    paged_set &operator=(paged_set &&) noexcept = default;
    void swap(paged_set &other) noexcept { at_.swap(other.at_); }
    friend void swap(paged_set &a, paged_set &b) noexcept { a.swap(b); }

    // The runs, ascending; each step is O(log n). to_set() has all of them in a list.
    [[nodiscard]] iterator begin() const { return {this, run_by(call::set_run_from, static_cast<number>(set<T>::lowest()))}; }
    [[nodiscard]] iterator end() const noexcept { return {this, std::nullopt}; }
    [[nodiscard]] size_type size() const { return size_of(call::set_run_count); }
    [[nodiscard]] bool empty() const { return detail::checked(call::set_is_empty(at_.get())); }
    [[nodiscard]] std::uint64_t member_count() const { return size_of(call::set_size); }
    [[nodiscard]] set<T> to_set() const {
        std::vector<pair> runs(static_cast<std::size_t>(size()));
        detail::checked(call::set_runs(at_.get(), runs.data(), runs.size()));
        std::vector<run<T>> items;
        items.reserve(runs.size());
        std::transform(runs.begin(), runs.end(), std::back_inserter(items), run_of);
        return set<T>(items);
    }
    [[nodiscard]] std::optional<T> first() const { return number_of(call::set_first); }
    [[nodiscard]] std::optional<T> last() const { return number_of(call::set_last); }

    // Whether a member is new, or was one.
    bool insert(T member) { return detail::checked(call::set_insert(at_.get(), member)); }
    bool insert(const run<T> &it) { return detail::checked(call::set_insert_run(at_.get(), it.lower, it.upper)); }
    bool erase(T member) { return detail::checked(call::set_remove(at_.get(), member)); }
    bool erase(const run<T> &it) { return detail::checked(call::set_remove_run(at_.get(), it.lower, it.upper)); }
    void clear() { detail::checked(call::set_clear(at_.get())); }
    std::optional<T> pop_first() { return number_of(call::set_pop_first); }
    std::optional<T> pop_last() { return number_of(call::set_pop_last); }
    std::optional<run<T>> take_first_fit(std::uint64_t count) { return run_by(call::set_take_first_fit, count); }

    [[nodiscard]] bool contains(T v) const { return detail::checked(call::set_contains(at_.get(), v)); }
    [[nodiscard]] bool includes(const run<T> &it) const { return detail::checked(call::set_includes(at_.get(), it.lower, it.upper)); }
    [[nodiscard]] bool overlaps(const run<T> &it) const { return detail::checked(call::set_overlaps(at_.get(), it.lower, it.upper)); }
    [[nodiscard]] std::uint64_t rank(T v) const { return size_of(call::set_rank, number(v)); }
    [[nodiscard]] std::uint64_t count_within(T lower, T upper) const { return size_of(call::set_size_within, number(lower), number(upper)); }
    [[nodiscard]] std::optional<T> nth(std::uint64_t i) const { return number_of(call::set_nth, i); }
    [[nodiscard]] std::optional<T> next_from(T v) const { return number_of(call::set_next_from, number(v)); }
    [[nodiscard]] std::optional<T> previous_to(T v) const { return number_of(call::set_previous_to, number(v)); }
    [[nodiscard]] std::optional<run<T>> run_at(T v) const { return run_by(call::set_run_at, number(v)); }
    [[nodiscard]] std::optional<run<T>> first_fit(std::uint64_t count) const { return run_by(call::set_first_fit, count); }
    [[nodiscard]] std::optional<run<T>> first_fit_from(T v, std::uint64_t count) const { return run_by(call::set_first_fit_from, number(v), count); }
    [[nodiscard]] std::optional<run<T>> best_fit(std::uint64_t count) const { return run_by(call::set_best_fit, count); }
    [[nodiscard]] std::optional<run<T>> longest_run() const { return run_by(call::set_longest_run); }

    [[nodiscard]] friend paged_set operator|(const paged_set &a, const paged_set &b) { return made(call::set_union, a.at(), b.at()); }
    [[nodiscard]] friend paged_set operator&(const paged_set &a, const paged_set &b) { return made(call::set_intersection, a.at(), b.at()); }
    [[nodiscard]] friend paged_set operator-(const paged_set &a, const paged_set &b) { return made(call::set_difference, a.at(), b.at()); }
    [[nodiscard]] friend paged_set operator^(const paged_set &a, const paged_set &b) {
        return made(call::set_symmetric_difference, a.at(), b.at());
    }
    [[nodiscard]] paged_set operator~() const { return gaps_within(set<T>::lowest(), set<T>::highest()); }
    [[nodiscard]] paged_set gaps_within(T lower, T upper) const { return made(call::set_gaps_within, at(), number(lower), number(upper)); }
    // In place, if the other one has far fewer runs.
    paged_set &operator|=(const paged_set &other) { return detail::checked(call::set_unite(at_.get(), other.at())), *this; }
    paged_set &operator&=(const paged_set &other) { return detail::checked(call::set_intersect(at_.get(), other.at())), *this; }
    paged_set &operator-=(const paged_set &other) { return detail::checked(call::set_subtract(at_.get(), other.at())), *this; }
    paged_set &operator^=(const paged_set &other) { return *this = *this ^ other; }
    [[nodiscard]] bool is_subset(const paged_set &other) const { return detail::checked(call::set_is_subset(at(), other.at())); }
    [[nodiscard]] bool overlaps(const paged_set &other) const { return detail::checked(call::set_overlap(at(), other.at())); }
    [[nodiscard]] friend bool operator==(const paged_set &a, const paged_set &b) { return detail::checked(call::set_equal(a.at(), b.at())); }
    [[nodiscard]] friend bool operator!=(const paged_set &a, const paged_set &b) { return !(a == b); }
    friend std::ostream &operator<<(std::ostream &to, const paged_set &it) { return to << it.to_set(); }

  private:
    const handle *at() const noexcept { return at_.get(); }
};

// A map from numbers to values: each number has one or none, and neighbours of equal value stand in one entry. Values are kept
// once each, by their hash; an edit is O(log n), or O(n) if the number of entries changes.
template <class T, class V, class Hash = std::hash<V>, class Equal = std::equal_to<V>> class map {
    static_assert(detail::is_number<T>, "ivl::map<T, V>: T is signed char, short, int, long, long long, or one of their unsigned forms");
    using call = detail::handle_calls<std::is_signed_v<T>>;
    using handle = typename call::map;
    using number = typename call::number;

    struct ends {
        void operator()(handle *it) const noexcept { call::map_free(it); }
    };
    std::unique_ptr<handle, ends> at_;
    // each value has a number, by which the library knows it; and the place of each number
    std::unordered_map<V, std::uint64_t, Hash, Equal> numbers_;
    std::vector<const V *> values_;

    static handle *made() {
        handle *made = nullptr;
        detail::checked(call::map_new(&made));
        return made;
    }
    std::uint64_t number_of(const V &value) {
        auto [at, is_new] = numbers_.try_emplace(value, values_.size());
        if (is_new)
            values_.push_back(&at->first);
        return at->second;
    }

  public:
    // A run of numbers and their value.
    struct entry {
        run<T> numbers;
        const V &value;
        [[nodiscard]] friend bool operator==(const entry &a, const entry &b) { return a.numbers == b.numbers && &a.value == &b.value; }
    };

  private:
    std::optional<entry> entry_of(std::int64_t told, const typename call::entry &it) const {
        if (!detail::checked(told))
            return std::nullopt;
        return entry{{static_cast<T>(it.lower), static_cast<T>(it.upper)}, *values_[static_cast<std::size_t>(it.value)]};
    }
    template <class F, class... Numbers> std::optional<entry> entry_by(F f, Numbers... numbers) const {
        typename call::entry found{};
        std::int64_t told = f(at_.get(), numbers..., &found);
        return entry_of(told, found);
    }

  public:
    // Steps over entries.
    class iterator {
        const map *map_ = nullptr;
        typename call::entry held_{};
        bool is_there_ = false;

        void seek(number from) { is_there_ = detail::checked(call::map_next_from(map_->at_.get(), from, &held_)); }

      public:
        using value_type = entry;
        using reference = entry;
        using pointer = void;
        using difference_type = std::ptrdiff_t;
        using iterator_category = std::input_iterator_tag;

        iterator() = default;
        iterator(const map *of, number from) : map_(of) { seek(from); }
        [[nodiscard]] entry operator*() const { return *map_->entry_of(1, held_); }
        iterator &operator++() {
            if (held_.upper == number(set<T>::highest()))
                is_there_ = false;
            else
                seek(held_.upper + 1);
            return *this;
        }
        void operator++(int) { ++*this; }
        [[nodiscard]] friend bool operator==(const iterator &a, const iterator &b) noexcept {
            return a.is_there_ == b.is_there_ && (!a.is_there_ || a.held_.lower == b.held_.lower);
        }
        [[nodiscard]] friend bool operator!=(const iterator &a, const iterator &b) noexcept { return !(a == b); }
    };
    using const_iterator = iterator;
    using value_type = entry;
    using size_type = std::uint64_t;

    map() : at_(made()) {}
    map(const map &other) : map() {
        for (entry it : other)
            insert(it.numbers, it.value);
    }
    map(map &&) noexcept = default;
    map &operator=(const map &other) { return *this = map(other); }
    map &operator=(map &&) noexcept = default;

    // The entries, ascending; each step is O(log n).
    [[nodiscard]] iterator begin() const { return {this, number(set<T>::lowest())}; }
    [[nodiscard]] iterator end() const noexcept { return {}; }
    [[nodiscard]] size_type size() const {
        std::uint64_t count = 0;
        detail::checked(call::map_entry_count(at_.get(), &count));
        return count;
    }
    [[nodiscard]] bool empty() const { return detail::checked(call::map_is_empty(at_.get())); }
    // How many numbers have a value.
    [[nodiscard]] std::uint64_t number_count() const {
        std::uint64_t count = 0;
        detail::checked(call::map_size(at_.get(), &count));
        return count;
    }

    // Gives the numbers of a run a value; or does so if none of them has one, and tells whether it did.
    void insert(const run<T> &numbers, const V &value) {
        detail::checked(call::map_insert(at_.get(), numbers.lower, numbers.upper, number_of(value)));
    }
    bool insert_if_free(const run<T> &numbers, const V &value) {
        return detail::checked(call::map_insert_if_free(at_.get(), numbers.lower, numbers.upper, number_of(value)));
    }
    void erase(const run<T> &numbers) { detail::checked(call::map_remove(at_.get(), numbers.lower, numbers.upper)); }
    void erase(T v) { erase(run<T>{v, v}); }
    void clear() {
        detail::checked(call::map_clear(at_.get()));
        numbers_.clear();
        values_.clear();
    }

    [[nodiscard]] bool contains(T v) const { return detail::checked(call::map_contains(at_.get(), v)); }
    // The value of a number, or null; it stays until the map is cleared or ended.
    [[nodiscard]] const V *get(T v) const {
        std::uint64_t found = 0;
        return detail::checked(call::map_get(at_.get(), v, &found)) ? values_[static_cast<std::size_t>(found)] : nullptr;
    }
    [[nodiscard]] const V &at(T v) const {
        const V *value = get(v);
        return value ? *value : throw std::out_of_range("ivl: the number has no value");
    }
    [[nodiscard]] std::optional<entry> entry_at(T v) const { return entry_by(call::map_entry_at, number(v)); }
    [[nodiscard]] std::optional<entry> first() const { return entry_by(call::map_first); }
    [[nodiscard]] std::optional<entry> last() const { return entry_by(call::map_last); }
    // The lowest `count` consecutive numbers of a run that have no value.
    [[nodiscard]] std::optional<run<T>> first_fit(const run<T> &among, std::uint64_t count) const {
        typename call::pair found{};
        if (!detail::checked(call::map_first_fit(at_.get(), among.lower, among.upper, count, &found)))
            return std::nullopt;
        return paged_set<T>::run_of(found);
    }
    [[nodiscard]] paged_set<T> keys() const { return paged_set<T>::made(call::map_keys, at_.get()); }
    [[nodiscard]] paged_set<T> gaps_within(const run<T> &among) const {
        return paged_set<T>::made(call::map_gaps_within, at_.get(), number(among.lower), number(among.upper));
    }
    [[nodiscard]] paged_set<T> numbers_with(const V &value) const {
        auto at = numbers_.find(value);
        return at == numbers_.end() ? paged_set<T>() : paged_set<T>::made(call::map_numbers_with, at_.get(), at->second);
    }
    [[nodiscard]] friend bool operator==(const map &a, const map &b) {
        return std::equal(a.begin(), a.end(), b.begin(), b.end(),
                          [](const entry &x, const entry &y) { return x.numbers == y.numbers && Equal()(x.value, y.value); });
    }
    [[nodiscard]] friend bool operator!=(const map &a, const map &b) { return !(a == b); }
};

} // namespace ivl

#endif
