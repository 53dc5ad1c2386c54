//! Each call that allocates succeeds with ample memory, well above every constant in the code and at its least input: a body that
//! tells want of memory there meets every contract.
use intervallum::proved::Global;
use intervallum::proved::ivl_network::network::{Network, Settled};
use intervallum::proved::ivl_paged::PagedSet;
use intervallum::proved::ivl_rules::rules::Rule;
use intervallum::proved::ivl_rules::rules::windows::{narrowed_to_window, narrowed_to_window_in};
use intervallum::proved::ivl_store::store::{Constraint, Spares};
use intervallum::proved::prelude::*;

type Set = IntervalSet<i64>;

fn every_third(count: i64) -> Set {
    let pairs: Vec<(i64, i64)> = (0..count).map(|i| (3 * i, 3 * i)).collect();
    pairs.as_slice().to_interval_set(Global).unwrap()
}

#[test]
fn sets_of_many_runs() {
    const COUNT: i64 = 20_000;
    let (a, b) = (every_third(COUNT), every_third(COUNT / 2).try_clone().unwrap());
    let few = every_third(3);
    for other in [&b, &few] {
        assert_eq!(a.union(other).unwrap().interval_count(), COUNT as usize);
        assert!(a.intersection(other).unwrap() == *other && other.intersection(&a).unwrap() == *other);
        assert_eq!(a.difference(other).unwrap().interval_count(), COUNT as usize - other.interval_count());
        assert_eq!(a.symmetric_difference(other).unwrap().interval_count(), COUNT as usize - other.interval_count());
        assert!(other.difference(&a).unwrap().is_empty());
    }
    assert_eq!(a.complement().unwrap().interval_count(), COUNT as usize + 1);
    assert_eq!((&a + &few).unwrap().interval_count(), COUNT as usize + 2);
    assert_eq!((&a * &few).unwrap().lower(), 0);
    let (some, more) = (every_third(200), every_third(300));
    assert_eq!((&some + &more).unwrap().interval_count(), 499);
    assert_eq!((&some - &more).unwrap().interval_count(), 499);
    assert_eq!(a.gaps_within(&Interval::new(0, 3 * COUNT)).unwrap().interval_count(), COUNT as usize);
    assert_eq!(Set::union_of(Global, &[&a; 40]).unwrap().interval_count(), COUNT as usize);
    assert_eq!(Set::intersection_of(Global, &[&a; 40]).unwrap().interval_count(), COUNT as usize);
    assert!(Set::collect(Global, a.iter().copied()).unwrap() == a);
    for runs in [COUNT, 65, 64, 1] {
        let window = Interval::new(1, 3 * runs);
        let left = narrowed_to_window_in(&a, window, &mut Spares::new(Global)).unwrap();
        assert!(left.is_some() && left == narrowed_to_window(&a, window).unwrap());
    }

    let members: Vec<i64> = (0..COUNT).map(|i| 3 * (i * 7_919 % COUNT)).collect();
    assert!(Set::of_members(Global, &members).unwrap() == a);
    let mut set = Set::empty(Global);
    set.extend_members(&members).unwrap();
    assert!(set == a);
    let upper = set.split_off(3 * COUNT / 2).unwrap();
    assert_eq!((set.interval_count(), upper.interval_count()), (COUNT as usize / 2, COUNT as usize / 2));
    set.extend(upper.iter().copied()).unwrap();
    assert!(set == a);
    set.insert_interval(Interval::new(1, 3 * COUNT)).unwrap();
    assert_eq!(set.interval_count(), 1);
}

#[test]
fn sets_at_their_least() {
    let empty = Set::empty(Global);
    let nothing = Interval::empty();
    let a = every_third(5);
    for made in [a.union(&empty), empty.union(&a), a.difference(&empty), a.symmetric_difference(&empty)] {
        assert!(made.unwrap() == a);
    }
    for made in [
        a.intersection(&empty),
        empty.intersection(&a),
        empty.difference(&a),
        empty.try_clone(),
        &empty + &a,
        &a - &empty,
    ] {
        assert!(made.unwrap().is_empty());
    }
    assert!(a.gaps_within(&nothing).unwrap().is_empty() && empty.gaps_within(&nothing).unwrap().is_empty());
    assert!(Set::of_members(Global, &[]).unwrap().is_empty() && Set::union_of(Global, &[]).unwrap().is_empty());
    assert!(Set::intersection_of(Global, &[]).unwrap() == Set::whole(Global).unwrap());
    assert_eq!(Set::whole(Global).unwrap().first_fit(u64::MAX), Some(Interval::whole()));
    assert_eq!((empty.first_fit(1), empty.best_fit(1), a.first_fit(2)), (None, None, None));
    let mut set = a.try_clone().unwrap();
    set.extend_members(&[]).unwrap();
    set.insert_interval(nothing).unwrap();
    set.remove_interval(nothing).unwrap();
    assert!(set == a && set.split_off(100).unwrap().is_empty() && set.split_off(-1).unwrap() == a && set.is_empty());
}

#[test]
#[allow(clippy::reversed_empty_ranges)]
fn every_source_of_a_set_and_every_operand_that_may_hold_nothing() {
    let ranges = [7..=9i64, 1..=3, 5..=4];
    let wanted = [(1, 3), (7, 9)].to_interval_set(Global).unwrap();
    let in_vec = intervallum::rattle::vec::Vec::from_array(Global, ranges.clone()).unwrap();
    for made in
        [ranges.as_slice().to_interval_set(Global), in_vec.to_interval_set(Global), ranges.to_interval_set(Global)]
    {
        assert!(made.unwrap() == wanted);
    }
    for (held, is_disjoint) in
        [(Optional::empty(), true), (Optional::singleton(4), true), (Optional::singleton(8), false)]
    {
        assert_eq!(wanted.is_disjoint(&held), is_disjoint);
        assert_eq!(Interval::new(7, 9).is_disjoint(&held), is_disjoint);
    }
}

#[test]
fn paged_sets_of_many_pages() {
    let a = every_third(20_000);
    let mut set = PagedSet::of_set(&a).unwrap();
    assert!(set.to_set().unwrap() == a && set.try_clone().unwrap() == set);
    // over some four pages, and then over nearly all
    for (lower, upper) in [(30_000, 31_500), (3, 59_990)] {
        set.remove_interval(Interval::new(lower, upper)).unwrap();
        assert!(!set.contains(&lower) && !set.contains(&upper));
        set.insert_interval(Interval::new(lower, upper)).unwrap();
        assert_eq!(set.run_at(lower), set.run_at(upper));
    }
    let mut set = PagedSet::<i64>::new(Global);
    assert!(set.to_set().unwrap().is_empty() && set.try_clone().unwrap().is_empty() && set.first_fit(1).is_none());
    set.insert_interval(Interval::empty()).unwrap();
    set.remove_interval(Interval::empty()).unwrap();
    assert!(set.is_empty() && set.insert(i64::MAX).unwrap() && set.insert(i64::MIN + 1).unwrap());
}

#[test]
fn networks_of_many_rules() {
    const COUNT: usize = 5_000;
    type Step = fn(usize, usize) -> Rule;
    // variable 0 is 1
    let steps: [Step; 2] = [
        |last, next| Rule::Sum(Constraint { x: last, y: 0, z: next }),
        |last, next| Rule::Shifted { x: last, y: next, by: 1 },
    ];
    for step in steps {
        let mut network: Network<i64> = Network::new(Global);
        network.add_variable(Set::new(Global, 1, 1).unwrap()).unwrap();
        let mut last = network.add_variable(Set::new(Global, 0, 0).unwrap()).unwrap();
        for _ in 0..COUNT {
            let next = network.add_variable(Set::new(Global, 0, 1_000_000).unwrap()).unwrap();
            network.require(step(last, next)).unwrap();
            last = next;
        }
        assert_eq!(network.settle(100_000_000).unwrap(), Settled::All);
        assert!(network.domains()[last] == Set::new(Global, COUNT as i64, COUNT as i64).unwrap());
    }
    let mut none: Network<i64> = Network::new(Global);
    assert_eq!(none.settle(0).unwrap(), Settled::All);
}

#[test]
#[cfg(target_pointer_width = "64")]
fn a_fit_is_found_or_not_in_a_long_list() {
    use intervallum::proved::ivl_buffers::{lookup, pair::PairI64};

    let list: Vec<PairI64> = (0..20_000).map(|i| PairI64 { lower: 10 * i, upper: 10 * i + 3 }).collect();
    let mut found = list[0];
    assert_eq!(lookup::first_fit(Global, &list, 4, &mut found), 1);
    assert_eq!((found.lower, found.upper), (0, 3));
    assert_eq!(lookup::first_fit(Global, &list, 5, &mut found), 0);
    assert_eq!(lookup::first_fit(Global, &[] as &[PairI64], 1, &mut found), 0);
}
