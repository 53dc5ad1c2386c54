//! What the docs say of memory and time and no contract can see, by counting: which calls do not allocate, what a set in pages
//! holds, that room is kept, and suffices a network, that sums do not list all results, and that sizes of few runs and many
//! take few looks.
// lists of pairs are there only where `usize` has 64 bits, and counts of bytes are of that
#![cfg(target_pointer_width = "64")]

use intervallum::proved::Global;
use intervallum::proved::ivl_buffers::comparisons::{Asking, ask};
use intervallum::proved::ivl_buffers::pair::{PairI64, PairU64};
use intervallum::proved::ivl_buffers::set_calls::{OfOne, OfTwo, of_one, of_two};
use intervallum::proved::ivl_buffers::{beside, lookup, reading, run_lists, sorted_lookup};
use intervallum::proved::ivl_network::network::Network;
use intervallum::proved::ivl_paged::PagedSet;
use intervallum::proved::ivl_rules::rules::Rule;
use intervallum::proved::ivl_store::store::{Constraint, Store};
use intervallum::proved::prelude::*;
use intervallum::proved::sweep::coalesce;
use std::cell::Cell;
use std::cmp::Ordering;

mod memory;
use memory::{Watched, cost};

#[global_allocator]
static ALLOCATOR: Watched = Watched;

const RUNS: usize = 10_000;

/// Lists of runs, well above each constant in the code.
fn lists() -> (Vec<PairI64>, Vec<PairI64>) {
    let of = |from: i64| (0..RUNS as i64).map(|i| PairI64 { lower: from + 5 * i, upper: from + 5 * i + 2 }).collect();
    (of(0), of(1))
}

#[test]
fn calls_on_lists_do_not_allocate() {
    let (a, b) = lists();
    let mut out = vec![PairI64 { lower: 0, upper: 0 }; 2 * RUNS + 2];
    let (mut found, mut run) = (0, a[0]);
    let ((), told) = cost(|| {
        for asking in [Asking::Within, Asking::Meets, Asking::Alike] {
            assert!(ask(Global, asking, &a, &b) >= 0 && ask(Global, asking, &a, &a) == 1);
        }
        for (making, runs) in
            [(OfTwo::Either, RUNS), (OfTwo::Both, RUNS), (OfTwo::FirstAlone, RUNS), (OfTwo::OneAlone, 2 * RUNS)]
        {
            assert_eq!(of_two(Global, making, &a, &b, &mut out), runs as i64);
        }
        assert_eq!(of_one(Global, OfOne::Rest, &a, &mut out), RUNS as i64 + 1);
        assert!(reading::contains(&a, 49_997) && !reading::contains(&a, 49_998));
        assert!(sorted_lookup::contains(&a, 49_997) && !sorted_lookup::contains(&a, 49_998));
        assert!(lookup::next_from(&a, 49_993, &mut found) && found == 49_995);
        assert!(sorted_lookup::next_from(&a, 49_993, &mut found) && found == 49_995);
        assert!(beside::previous_to(&a, 49_994, &mut found) && found == 49_992);
        assert!(beside::run_at(&a, 49_996, &mut run) && run.upper == a[RUNS - 1].upper);
        assert!(run_lists::is_run_list(&a));
    });
    assert_eq!(told.allocations, 0);
    // nothing is found, and lists that are empty
    let none: [PairU64; 0] = [];
    let ((), told) = cost(|| {
        assert_eq!(ask(Global, Asking::Within, &none, &none), 1);
        assert_eq!(of_two(Global, OfTwo::Either, &none, &none, &mut []), 0);
        assert!(!lookup::next_from(&a, 50_000, &mut found) && !beside::previous_to(&a, -1, &mut found));
    });
    assert_eq!(told.allocations, 0);
}

/// A paged set of `count` runs that come in no order, of numbers below twice a prime.
fn paged(count: u64, prime: u64) -> PagedSet<u64> {
    let mut set = PagedSet::new(Global);
    for i in 0..count {
        let _ = set.insert(2 * (i * 48_271 % prime)).unwrap();
    }
    set
}

#[test]
fn pages_are_small_and_well_filled() {
    let (set, told) = cost(|| paged(65_536, 65_537));
    let runs = set.interval_count() as isize;
    assert!(runs > 65_000);
    // an edit moves a page, and so no allocation but that of the list of pages has room for many runs
    let list = 65_536 / 64 * 128;
    assert!(told.largest <= list, "{told:?}");
    // pages of one run each would hold some 100 bytes a run
    assert!(told.held <= runs * 16 * 8 / 5, "{told:?}");
}

#[test]
fn a_million_runs_in_pages_take_half_as_much_again() {
    let (mut set, told) = cost(|| paged(1_000_000, 1_000_003));
    let runs = set.interval_count() as isize;
    assert_eq!(runs, 1_000_000);
    assert!(told.held <= runs * 16 * 3 / 2, "{told:?}");
    // pages that are used up go soon
    let (_, popped) = cost(|| (0..500_000).for_each(|_| assert!(set.pop_first().is_some())));
    let left = set.interval_count() as isize;
    assert_eq!(left, 500_000);
    assert!(told.held + popped.held <= left * 16 * 7 / 4, "{told:?} {popped:?}");
}

#[test]
fn clear_keeps_room() {
    let mut set = IntervalSet::<i64>::empty(Global);
    let fill = |set: &mut IntervalSet<i64>| (0..1_000).for_each(|i| assert!(set.insert(3 * i).unwrap()));
    fill(&mut set);
    let ((), told) = cost(|| {
        set.clear();
        fill(&mut set);
    });
    assert_eq!((told.allocations, told.held), (0, 0));
}

#[test]
fn a_set_copies_runs_and_nothing_more() {
    let (a, _) = lists();
    let set = reading::set_of(Global, &a).unwrap();
    let (copy, told) = cost(|| set.try_clone().unwrap());
    assert!(copy == set);
    assert_eq!((told.allocations, told.held), (1, 16 * RUNS as isize));
    let (_, told) =
        cost(|| (set.contains(&7), set.first_fit(3), set.size(), set.rank(9_000), set.is_subset(&copy), set == copy));
    assert_eq!(told.allocations, 0);
    let (_, told) = cost(|| (set.intersection_size(&copy), set.union_size(&copy), set.difference_size(&copy)));
    assert_eq!(told.allocations, 0);
    let root = intervallum::IntervalSet::from(set);
    let (copy, told) = cost(|| root.clone());
    assert!(copy == root);
    assert_eq!((told.allocations, told.held), (1, 16 * RUNS as isize));
}

#[test]
fn a_copy_into_a_set_uses_its_memory() {
    let (a, b) = lists();
    let (long, other) = (reading::set_of(Global, &a).unwrap(), reading::set_of(Global, &b).unwrap());
    let short = IntervalSet::new(Global, 1, 2).unwrap();
    let mut set = long.try_clone().unwrap();
    let (_, told) = cost(|| {
        for from in [&short, &other, &IntervalSet::empty(Global), &long] {
            set.try_clone_from(from).unwrap();
            assert!(set == *from && set.size() == from.size());
        }
    });
    assert_eq!((told.allocations, told.held), (0, 0));
    let mut root = intervallum::IntervalSet::from(long.try_clone().unwrap());
    let (from, none) = (intervallum::IntervalSet::from(1..=9), intervallum::IntervalSet::<i64>::empty());
    let (_, told) = cost(|| {
        root.clone_from(&from);
        assert!(root == from);
        root.clone_from(&none);
        assert!(root.is_empty());
    });
    assert_eq!((told.allocations, told.held), (0, 0));
    let mut set = short;
    let (_, told) = cost(|| set.try_clone_from(&long).unwrap());
    assert!(set == long);
    assert_eq!((told.allocations, told.held), (1, 16 * (RUNS as isize - 1)));
}

/// `|=` by a set with far fewer runs is made of edits in place, and makes no list of all runs.
#[test]
fn few_runs_are_added_in_place() {
    macro_rules! in_place {
        ($($Set:ident: $most:expr;)*) => {$(
            let mut long: intervallum::$Set<i64> = (0..20_000).map(|i| 10 * i).collect();
            // makes room for more runs
            assert!(long.insert(1_000_000) && long.remove(1_000_000));
            let few = intervallum::$Set::from([5..=5, 15..=15, 100..=109, 199_991..=199_993]);
            let (whole, told) = cost(|| long.union(&few));
            assert!(told.most > 20_000 * 16, "{told:?}");
            let ((), told) = cost(|| long |= &few);
            assert!(told.most <= $most && long == whole, "{}: {told:?}", stringify!($Set));
        )*};
    }
    // two pages may be split
    in_place! {
        IntervalSet: 0;
        PagedSet: 2 * 128 * 16;
    }
}

#[test]
fn adding_to_a_network_with_room_does_not_allocate() {
    let domains: Vec<_> = (0..300).map(|from| IntervalSet::new(Global, from, from + 9).unwrap()).collect();
    let rules = |i| [Rule::Sum(Constraint { x: i, y: i + 1, z: i + 2 }), Rule::Differs { x: i, y: i + 2, by: 1 }];
    let mut network = Network::new(Global);
    network.reserve(300, 596).unwrap();
    let ((), told) = cost(|| {
        for domain in domains {
            network.add_variable(domain).unwrap();
        }
        (0..298).flat_map(rules).for_each(|rule| network.require(rule).unwrap());
    });
    assert_eq!((network.domains().len(), network.rules().len(), told.allocations), (300, 596, 0));
    let mut store = Store::new(Global, Vec::new().into());
    store.reserve(2).unwrap();
    let domain = IntervalSet::new(Global, 0, 9).unwrap();
    let (place, told) = cost(|| store.add_variable(domain).unwrap());
    assert_eq!((place, told.allocations), (0, 0));
}

#[test]
fn sums_of_dense_sets_list_few_results() {
    let of = |step: i64| -> IntervalSet<i64> {
        let pairs: Vec<(i64, i64)> = (0..1_000).map(|i| (step * i, step * i + step / 2)).collect();
        pairs.as_slice().to_interval_set(Global).unwrap()
    };
    let (a, b) = (of(4), of(6));
    let (sums, told) = cost(|| (&a + &b).unwrap());
    assert_eq!(sums.interval_count(), 1);
    // all million results would take 16 MB
    assert!(told.most < 1 << 20, "{told:?}");
}

#[test]
fn results_keep_little_room_beside_their_runs() {
    let of = |count: i64, from: i64, step: i64| -> IntervalSet<i64> {
        let pairs: Vec<(i64, i64)> = (0..count).map(|i| (from + step * i, from + step * i + 1)).collect();
        pairs.as_slice().to_interval_set(Global).unwrap()
    };
    // sets of so many runs, how many of them both have, and for how many the result keeps room
    for (count, shared, room) in
        [(10, 4, 20), (10, 3, 3), (10, 0, 0), (16, 16, 32), (16, 15, 15), (100, 99, 99), (100, 100, 200)]
    {
        let (a, b) = (of(count, 0, 5), of(count, 5 * (count - shared), 5));
        let (both, told) = cost(|| a.intersection(&b).unwrap());
        assert_eq!((both.interval_count() as i64, told.held), (shared, 16 * room as isize), "{count} {shared}");
    }
}

#[test]
fn intervals_in_no_order_take_their_memory_twice_and_counts() {
    for count in [10, 95, 96, 1_000, 10_000, 200_000] {
        let list: Vec<Interval<i64>> =
            (0..count).map(|i| 5 * (i * 48_271 % count)).map(|lower| Interval::new(lower, lower + 2)).collect();
        let (set, told) = cost(|| coalesce(Global, list.into()).unwrap());
        assert_eq!(set.size(), 3 * set.interval_count() as u64);
        // beside the list: as many intervals again, and at most two counts for each
        assert!(told.most <= (16 + 2 * 4) * count as isize && told.held <= 0, "{count}: {told:?}");
        // runs in order become the set as they are
        let runs: Vec<Interval<i64>> = set.iter().copied().collect();
        let (same, told) = cost(|| coalesce(Global, runs.into()).unwrap());
        assert!(same == set && told.allocations == 0, "{count}: {told:?}");
        // and keep their room where they are known to be runs
        let mut runs: Vec<Interval<i64>> = Vec::with_capacity(4 * count as usize);
        runs.extend(set.iter());
        let (same, told) = cost(|| IntervalSet::from_runs(runs.into()));
        assert!(same == set && same.size() == set.size(), "{count}");
        assert_eq!((told.allocations, told.held), (0, 0), "{count}");
    }
}

thread_local! {
    static READ: Cell<usize> = const { Cell::new(0) };
}

/// A number that counts how often one is compared or read.
#[derive(Clone, Copy, Debug)]
struct Counted(i64);

impl Counted {
    fn read(self) -> i64 {
        READ.set(READ.get() + 1);
        self.0
    }
}

impl PartialEq for Counted {
    fn eq(&self, other: &Counted) -> bool {
        self.read() == other.0
    }
}

impl Eq for Counted {}

impl PartialOrd for Counted {
    fn partial_cmp(&self, other: &Counted) -> Option<Ordering> {
        Some(self.cmp(other))
    }
}

impl Ord for Counted {
    fn cmp(&self, other: &Counted) -> Ordering {
        self.read().cmp(&other.0)
    }
}

impl Width for Counted {
    type Output = u64;

    fn min_value() -> Counted {
        Counted(-i64::MAX)
    }

    fn max_value() -> Counted {
        Counted(i64::MAX)
    }

    fn number(self) -> i128 {
        self.read().into()
    }

    fn from_number(number: i128) -> Option<Counted> {
        i64::try_from(number).ok().filter(|&number| number > i64::MIN).map(Counted)
    }
}

/// `count` runs of `width` numbers from `from` on, `step` apart.
fn counted(count: i64, from: i64, step: i64, width: i64) -> IntervalSet<Counted> {
    let of = |i: i64| (Counted(from + step * i), Counted(from + step * i + width - 1));
    let pairs: Vec<(Counted, Counted)> = (0..count).map(of).collect();
    pairs.as_slice().to_interval_set(Global).unwrap()
}

/// What a call returns, and how often it compared or read a bound. It must not allocate.
fn reads<T>(call: impl FnOnce() -> T) -> (T, usize) {
    READ.set(0);
    let (made, told) = cost(call);
    assert_eq!(told.allocations, 0);
    (made, READ.get())
}

#[test]
fn sizes_of_few_runs_and_many_take_few_looks() {
    let (many, other) = (counted(100_000, 0, 10, 4), counted(100_000, 5, 10, 4));
    // each of the ten overlaps two of the many
    let few = counted(10, 2, 100_000, 11);
    assert_eq!((many.interval_count(), few.interval_count()), (100_000, 10));
    let (found, looks) = reads(|| (many.intersection_size(&few), few.intersection_size(&many)));
    assert_eq!(found, (50, 50));
    assert!(looks < 10_000, "{looks}");
    let (found, looks) = reads(|| (many.difference_size(&few), few.difference_size(&many)));
    assert_eq!(found, (399_950, 60));
    assert!(looks < 10_000, "{looks}");
    let (found, looks) = reads(|| (many.union_size(&few), few.union_size(&many)));
    assert_eq!(found, (400_060, 400_060));
    assert!(looks < 10_000, "{looks}");
    // two sets of many runs are walked over
    let (found, looks) = reads(|| many.intersection_size(&other));
    assert!(found == 0 && looks >= 200_000, "{found} {looks}");
}

#[test]
fn results_of_dense_sets_take_few_looks() {
    let (a, b) = (counted(2_000, -3_000, 4, 2), counted(1_000, -3_000, 6, 3));
    for make in [|a, b| a + b, |a, b| a - b, |a: &IntervalSet<Counted>, b: &IntervalSet<Counted>| a * b] {
        READ.set(0);
        let made = make(&a, &b).unwrap();
        // to make a result of each of the 2,000,000 pairs of runs reads four bounds
        assert!(made.interval_count() < 100 && READ.get() < 4_000_000, "{} {}", made.interval_count(), READ.get());
    }
}
