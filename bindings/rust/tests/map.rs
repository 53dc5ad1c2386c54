//! Maps of the root: each call, least inputs and the ends of the range, panics, values of several types, traits of std.
use intervallum::map::{IntoIter, Iter, Values};
use intervallum::proved::ivl_map::MapValue;
use intervallum::proved::ops::{Bounded as _, Range as _};
use intervallum::proved::{self, AllocError, Global, Interval};
use intervallum::{Full, IntervalMap, IntervalSet, PagedSet};
use std::collections::{BTreeMap, HashMap, HashSet};
use std::fmt::Debug;
use std::ops::Bound::{Excluded, Unbounded};
use std::panic::{self, AssertUnwindSafe, UnwindSafe};
use std::sync::Mutex;

type Map<V> = IntervalMap<i32, V>;

/// A value of a type of one's own.
#[derive(Clone, Copy, Debug, PartialEq, Eq, Hash)]
enum Owner {
    Kernel,
    User(u32),
}

use Owner::{Kernel, User};

/// The entries of a map, as pairs of bounds.
fn told<V: Clone + Eq>(map: &Map<V>) -> Vec<(i32, i32, V)> {
    map.iter().map(|(run, value)| (*run.start(), *run.end(), value.clone())).collect()
}

#[test]
fn entries_are_written_over_joined_and_split() {
    let mut map = Map::new();
    map.insert(0..=9, User(1));
    map.insert(3..=4, Kernel);
    assert_eq!(told(&map), [(0, 2, User(1)), (3, 4, Kernel), (5, 9, User(1))]);
    map.insert(3..=4, User(1));
    assert_eq!(told(&map), [(0, 9, User(1))]);
    map.insert(10..=12, User(1));
    map.insert(-3..0, User(1));
    assert_eq!(told(&map), [(-3, 12, User(1))]);
    map.insert(20..=30, Kernel);
    map.insert(40..=50, User(2));
    map.insert(25..=45, User(3));
    assert_eq!(told(&map), [(-3, 12, User(1)), (20, 24, Kernel), (25, 45, User(3)), (46, 50, User(2))]);
    map.insert(.., Kernel);
    assert_eq!(told(&map), [(-i32::MAX, i32::MAX, Kernel)]);
    map.insert(5..5, User(1));
    assert_eq!(map.interval_count(), 1, "an empty range has no numbers");
    assert!(map.remove(0) && !map.remove(0) && !map.remove(7..7) && map.remove(10..));
    assert_eq!(told(&map), [(-i32::MAX, -1, Kernel), (1, 9, Kernel)]);
    assert!(map.remove(i32::MIN..) && map.is_empty() && !map.remove(..));
}

#[test]
fn ranges_of_each_kind_are_arguments() {
    let mut map = Map::new();
    map.insert(1, 'a');
    map.insert((3, 4), 'b');
    map.insert(&(5..7), 'c');
    map.insert((Excluded(9), Excluded(12)), 'd');
    assert_eq!(told(&map), [(1, 1, 'a'), (3, 4, 'b'), (5, 6, 'c'), (10, 11, 'd')]);
    assert_eq!(map.overlapping((Excluded(4), Unbounded)).count(), 2);
    assert_eq!(map.gaps_within(..=4), IntervalSet::from([-i32::MAX..=0, 2..=2]));
}

#[test]
fn questions_and_their_least_inputs() {
    let none = Map::<String>::empty();
    let map = Map::from([(1..=5, "a"), (6..=9, "b"), (12..=20, "a")]);
    assert_eq!((none.get(1), none.get_run(1), none.first(), none.last()), (None, None, None, None));
    assert_eq!((none.next_from(i32::MIN), none.previous_to(i32::MAX), none.size()), (None, None, 0));
    assert_eq!((none.interval_count(), none.iter().len(), none.values().len()), (0, 0, 0));
    assert_eq!((none.keys(), none.numbers_with(|_| true)), (IntervalSet::empty(), IntervalSet::empty()));
    assert_eq!((none.gaps_within(1..3), none.first_fit(4.., 2)), (IntervalSet::from(1..3), Some(4..=5)));
    assert!(none.overlapping(..).next().is_none() && !none.contains(1) && none.is_empty());

    assert_eq!((map.get(5), map.get(6), map.get(10), map.get(i32::MIN)), (Some(&"a"), Some(&"b"), None, None));
    assert!(map.contains(12) && !map.contains(11) && !map.is_empty());
    assert_eq!((map.get_run(5), map.get_run(20)), (Some((1..=5, &"a")), Some((12..=20, &"a"))));
    assert_eq!((map.get_run(0), map.get_run(21)), (None, None));
    assert_eq!((map.first(), map.last()), (Some((1..=5, &"a")), Some((12..=20, &"a"))));
    assert_eq!((map.next_from(9), map.next_from(10), map.next_from(21)), (map.get_run(6), map.get_run(12), None));
    assert_eq!((map.previous_to(12), map.previous_to(11), map.previous_to(0)), (map.get_run(12), map.get_run(9), None));
    assert_eq!((map.interval_count(), map.size()), (3, 18));
    assert_eq!(map.keys(), IntervalSet::from([1..=9, 12..=20]));
    assert_eq!(map.numbers_with(|name| *name == "a"), IntervalSet::from([1..=5, 12..=20]));
    assert_eq!(map.numbers_with(|_| true), map.keys());
    assert_eq!(map.gaps_within(0..=30), IntervalSet::from([0..=0, 10..=11, 21..=30]));
    assert_eq!((map.gaps_within(3..7), map.gaps_within(3..3)), (IntervalSet::empty(), IntervalSet::empty()));
    assert_eq!((map.first_fit(1..=30, 2), map.first_fit(1..=30, 3)), (Some(10..=11), Some(21..=23)));
    assert_eq!((map.first_fit(1..=22, 3), map.checked_first_fit(.., 0)), (None, None));
    assert_eq!(map.checked_first_fit(5..9, 1), Some(None));
    let met = |range| map.overlapping(range).map(|(run, _)| *run.start()).collect::<Vec<_>>();
    assert_eq!(
        (met(5..6), met(5..7), met(10..12), met(9..9), met(9..13)),
        (vec![1], vec![1, 6], vec![], vec![], vec![6, 12])
    );
    assert_eq!(map.values().copied().collect::<String>(), "aba");
}

#[test]
fn a_free_range_is_taken_or_the_entry_in_the_way_is_told() {
    let mut map = Map::new();
    assert_eq!(map.insert_if_free(1..=5, Kernel), Ok(()));
    assert_eq!(map.insert_if_free(5..=9, User(7)), Err((1..=5, &Kernel)));
    assert_eq!(map.insert_if_free(-5..=30, User(7)), Err((1..=5, &Kernel)));
    assert_eq!(map.insert_if_free(6..=9, Kernel), Ok(()));
    assert_eq!(map.insert_if_free(20..=20, User(7)), Ok(()));
    assert_eq!(map.insert_if_free(7..7, User(7)), Ok(()));
    assert_eq!(map.checked_insert_if_free(10..=12, User(8)), Some(Ok(())));
    assert_eq!(map.checked_insert_if_free(12..=12, User(9)), Some(Err((10..=12, &User(8)))));
    assert_eq!(map.checked_insert_if_free(i32::MIN..=0, User(9)), None);
    assert_eq!(told(&map), [(1, 9, Kernel), (10, 12, User(8)), (20, 20, User(7))]);
}

#[test]
fn parts_of_maps_and_maps_of_two() {
    let map = Map::from([(1..=5, 1), (6..=9, 2), (12..=20, 3)]);
    assert_eq!(told(&map.cut_to(4..13)), [(4, 5, 1), (6, 9, 2), (12, 12, 3)]);
    assert!(map.cut_to(10..12).is_empty() && map.cut_to(5..5).is_empty() && map.cut_to(..) == map);
    let some = IntervalSet::from([2..=3, 5..=6, 15..=40]);
    assert_eq!(told(&map.restrict_to(&some)), [(2, 3, 1), (5, 5, 1), (6, 6, 2), (15, 20, 3)]);
    assert_eq!(told(&map.without(&some)), [(1, 1, 1), (4, 4, 1), (7, 9, 2), (12, 14, 3)]);
    assert_eq!(map.restrict_to(&PagedSet::from(&some)), map.restrict_to(&some));
    assert_eq!(map.without(&PagedSet::from(&some)), map.without(&some));
    assert_eq!((map.without(&map.keys()), map.restrict_to(&map.keys())), (Map::empty(), map.clone()));
    let other = Map::from([(-3..=2, 10), (5..=13, 20), (30..=31, 30)]);
    let mut asked = Vec::new();
    let sums = map.merge(&other, |x, y| {
        asked.push((*x, *y));
        x + y
    });
    let wanted = [
        (-3, 0, 10),
        (1, 2, 11),
        (3, 4, 1),
        (5, 5, 21),
        (6, 9, 22),
        (10, 11, 20),
        (12, 13, 23),
        (14, 20, 3),
        (30, 31, 30),
    ];
    assert_eq!((told(&sums), asked), (wanted.to_vec(), vec![(1, 10), (1, 20), (2, 20), (3, 20)]));
    assert_eq!((map.merge(&Map::empty(), |x, _| *x), Map::empty().merge(&map, |x, _| *x)), (map.clone(), map.clone()));
    assert_eq!(map.merge(&map, |x, _| *x), map);
    // neighbours that get equal values are one entry
    assert_eq!(told(&map.merge(&other, |_, _| 20).cut_to(5..=13)), [(5, 13, 20)]);
    let mut changed = map.clone();
    changed.update(8..=14, |x| x * 10);
    assert_eq!(told(&changed), [(1, 5, 1), (6, 7, 2), (8, 9, 20), (12, 14, 30), (15, 20, 3)]);
    changed.update(.., |_| 0);
    assert_eq!(told(&changed), [(1, 9, 0), (12, 20, 0)]);
    changed.update(5..5, |_| panic!("an empty range asks nothing"));
}

#[test]
fn edits_of_sets_of_maps_and_by_functions() {
    let map = Map::from([(1..=5, 1), (6..=9, 2), (12..=20, 3)]);
    let some = IntervalSet::from([2..=3, 5..=6, 15..=40]);
    let edited = |edit: fn(&mut Map<i32>, &IntervalSet<i32>)| {
        let mut edited = map.clone();
        edit(&mut edited, &some);
        told(&edited)
    };
    assert_eq!(
        edited(|map, set| map.insert_set(set, 2)),
        [(1, 1, 1), (2, 3, 2), (4, 4, 1), (5, 9, 2), (12, 14, 3), (15, 40, 2)]
    );
    assert_eq!(edited(|map, set| map.insert_set(&PagedSet::from(set), 2)), edited(|map, set| map.insert_set(set, 2)));
    assert_eq!(edited(|map, _| map.insert_set(&IntervalSet::empty(), 2)), told(&map));
    assert_eq!(edited(|map, set| assert!(map.remove_set(set))), told(&map.without(&some)));
    assert_eq!(edited(|map, set| assert!(map.remove_set(&PagedSet::from(set)))), told(&map.without(&some)));
    assert_eq!(edited(|map, _| assert!(!map.remove_set(&IntervalSet::from([0, 10, 99])))), told(&map));
    assert_eq!(edited(|map, _| map.retain(|run, value| run.contains(&6) || *value == 3)), [(6, 9, 2), (12, 20, 3)]);
    assert_eq!(edited(|map, _| map.retain(|_, _| false)), []);
    assert_eq!(
        edited(|map, _| map.append(&mut Map::from([(4..=7, 9), (30..=31, 3)]))),
        [(1, 3, 1), (4, 7, 9), (8, 9, 2), (12, 20, 3), (30, 31, 3)]
    );
    assert_eq!(edited(|map, _| map.append(&mut Map::new())), told(&map));
    assert_eq!(edited(|map, _| Map::new().append(map)), []);
    assert_eq!(edited(|map, _| assert_eq!(told(&map.split_off(8)), [(8, 9, 2), (12, 20, 3)])), [(1, 5, 1), (6, 7, 2)]);
    assert_eq!(edited(|map, _| assert_eq!(map.split_off(i32::MIN).interval_count(), 3)), []);
    assert_eq!(edited(|map, _| assert!(map.split_off(21).is_empty())), told(&map));
    assert_eq!(
        edited(|map, _| map.combine(4..=13, |old| old.map_or(Some(2), |old| (*old == 1).then_some(2)))),
        [(1, 3, 1), (4, 5, 2), (10, 11, 2), (14, 20, 3)]
    );
    assert_eq!(edited(|map, _| map.combine(.., |_| Some(7))), [(-i32::MAX, i32::MAX, 7)]);
    assert_eq!(edited(|map, _| map.combine(.., |_| None)), []);
    assert_eq!(edited(|map, _| map.combine(5..5, |_| unreachable!())), told(&map));
    let mut count = 0;
    map.clone().update(.., |value| {
        count += value;
        *value
    });
    assert_eq!((count, map.numbers_with(|value| (count == 6, count += value).0).size()), (6, 5));
    assert_eq!((&map & &some, &map & &PagedSet::from(&some)), (map.restrict_to(&some), map.restrict_to(&some)));
    assert_eq!(told(&(&map | &Map::from([(4..=6, 9)]))), [(1, 3, 1), (4, 6, 9), (7, 9, 2), (12, 20, 3)]);
    assert_eq!((Map::<u8>::merge_of([], |_, _| 0), Map::merge_of([&map], |_, _| 0)), (Map::new(), map));
}

#[test]
fn questions_about_ranges() {
    let map = Map::from([(1..=5, "a"), (6..=9, "b"), (12..=20, "a")]);
    let none = Map::<String>::empty();
    assert!(
        map.includes(1..=9) && !map.includes(1..=10) && !map.includes(0..=5) && map.includes(7) && map.includes(30..30)
    );
    assert!(!map.includes(9..=12) && !map.includes(i32::MIN..) && none.includes(5..5) && !none.includes(5));
    assert!(
        map.overlaps(9..12) && !map.overlaps(10..12) && map.overlaps(..) && !map.overlaps(5..5) && !none.overlaps(..)
    );
    assert_eq!((map.size_within(4..=12), map.size_within(10..12), none.size_within(..)), (7, 0, 0));
    let parts = map.overlapping_within(5..=13);
    assert_eq!(format!("{parts:?}"), r#"IterWithin {5..=5: "a", 6..=9: "b", 12..=13: "a"}"#);
    assert_eq!((parts.len(), parts.clone().count(), parts.clone().last()), (3, 3, Some((12..=13, &"a"))));
    assert_eq!((parts.clone().nth(1), parts.clone().nth_back(2)), (Some((6..=9, &"b")), Some((5..=5, &"a"))));
    assert_eq!(parts.rev().map(|(run, _)| *run.start()).collect::<Vec<_>>(), [12, 6, 5]);
    assert!(map.overlapping_within(7..7).next().is_none() && none.overlapping_within(..).next().is_none());
    assert_eq!((map[5], map[6], &map.overlapping_within(7..=8).next()), ("a", "b", &Some((7..=8, &"b"))));
    assert_eq!(message(|| _ = map[10]), "IntervalMap::index(10): the number must have a value");
    let mut octets = IntervalMap::from([(1..=5u8, 'a')]);
    let told = message(|| octets.combine(250..=255, |_| unreachable!()));
    assert_eq!(told, "IntervalMap::combine(250..=255): the numbers must be from 0 to 254");
    assert_eq!(octets.checked_combine(250..=255, |_| unreachable!()), None);
}

#[test]
fn maps_are_in_the_order_of_their_numbers() {
    let all = [
        Map::new(),
        Map::from([(1, 5)]),
        Map::from([(1, 5), (2, 4)]),
        Map::from([(1..=2, 5)]),
        Map::from([(1..=2, 5), (3..=3, 4)]),
        Map::from([(1..=3, 5)]),
        Map::from([(1..=2, 5), (3..=3, 6)]),
        Map::from([(1..=2, 5), (9..=9, 0)]),
        Map::from([(1, 5), (3, 0)]),
        Map::from([(1, 6)]),
        Map::from([(2, 0)]),
    ];
    assert!(all.is_sorted_by(|a, b| a < b));
    assert!(all.iter().rev().is_sorted_by(|a, b| a > b) && all.iter().all(|a| a.cmp(a).is_eq()));
}

/// The message of the panic of a call.
fn message(call: impl FnOnce()) -> String {
    let fault = panic::catch_unwind(AssertUnwindSafe(call)).unwrap_err();
    fault.downcast_ref::<String>().cloned().unwrap_or_else(|| (*fault.downcast_ref::<&str>().unwrap()).to_owned())
}

#[test]
fn a_condition_that_does_not_hold_is_told() {
    let mut map = IntervalMap::from([(1..=5u8, 'a')]);
    let range = "the numbers must be from 0 to 254";
    assert_eq!(message(|| map.insert(9..=255, 'b')), format!("IntervalMap::insert(9..=255): {range}"));
    assert_eq!(message(|| _ = map.insert_if_free(255, 'b')), format!("IntervalMap::insert_if_free(255): {range}"));
    assert_eq!(message(|| map.extend([(7..=8, 'b'), (255..=255, 'b')])), format!("IntervalMap::extend(255): {range}"));
    assert_eq!(
        message(|| _ = [(7..=255, 'b')].into_iter().collect::<IntervalMap<u8, char>>()),
        format!("IntervalMap::from_iter(7..=255): {range}")
    );
    assert_eq!(message(|| _ = IntervalMap::from([(255u8, 'b')])), format!("IntervalMap::from(255): {range}"));
    assert_eq!(message(|| _ = map.first_fit(.., 0)), "IntervalMap::first_fit(.., 0): the count must be above 0");
    assert_eq!((map.checked_insert(9..=255, 'b'), map.checked_extend([(7, 'b'), (255, 'b')])), (None, None));
    assert_eq!(IntervalMap::checked_from_iter([(7u8, 'b'), (255, 'b')]), None);
    assert_eq!(map, IntervalMap::from([(1..=5, 'a')]), "it is unchanged");
    assert_eq!(
        (map.checked_insert(254, 'b'), map.checked_extend([(7, 'c'), (8, 'c')]), map.get(255)),
        (Some(()), Some(()), None)
    );
    assert_eq!(map.iter().last(), Some((254..=254, &'b')));
    let (first, file) = panics_at(|| IntervalMap::new().insert(255u8, 'a'));
    assert!(file.ends_with("map.rs") && first > 0, "{file}");
}

/// The line and the file that the panic of a call names.
fn panics_at(call: impl FnOnce()) -> (u32, String) {
    static PLACE: Mutex<Option<(u32, String)>> = Mutex::new(None);
    let hook = panic::take_hook();
    panic::set_hook(Box::new(|info| {
        *PLACE.lock().unwrap() = info.location().map(|at| (at.line(), at.file().to_owned()));
    }));
    panic::catch_unwind(AssertUnwindSafe(call)).unwrap_err();
    panic::set_hook(hook);
    PLACE.lock().unwrap().take().unwrap()
}

#[test]
fn later_entries_win() {
    let list = [(1..=9, "a"), (4..=5, "b"), (-3..=4, "c"), (9..=12, "a")];
    let map = Map::from(list.clone());
    assert_eq!(told(&map), [(-3, 4, "c"), (5, 5, "b"), (6, 12, "a")]);
    assert_eq!((Map::from(list.to_vec()), list.clone().into_iter().collect()), (map.clone(), map.clone()));
    let mut other = Map::from([(5, "z")]);
    other.extend(list.clone());
    assert_eq!((other, Map::checked_from_iter(list)), (map.clone(), Some(map)));
    assert_eq!(Map::<u8>::from(Vec::<(i32, u8)>::new()), Map::empty());
}

static NONE: IntervalMap<u32, String> = IntervalMap::new();
static SHARED: Mutex<IntervalMap<u64, u64>> = Mutex::new(IntervalMap::empty());

fn is_plain<T: Send + Sync + Clone + Debug + Eq + std::hash::Hash + Default + UnwindSafe>() {}

#[test]
fn maps_stand_in_statics_and_are_shared() {
    is_plain::<IntervalMap<u8, String>>();
    assert!(NONE.is_empty() && NONE == IntervalMap::default() && NONE.clone().into_iter().next().is_none());
    assert_eq!((NONE.cut_to(..), NONE.restrict_to(&IntervalSet::whole())), (NONE.clone(), NONE.clone()));
    let mut none = NONE.clone();
    none.clear();
    none.update(.., String::clone);
    assert_eq!((format!("{none:?}"), none), ("{}".to_owned(), NONE.clone()));
    std::thread::scope(|scope| {
        for i in 0..8u64 {
            scope.spawn(move || SHARED.lock().unwrap().insert(100 * i..100 * i + 90, i % 2));
        }
    });
    let shared = SHARED.lock().unwrap();
    assert_eq!((shared.size(), shared.get(389)), (720, Some(&1)));
}

#[test]
fn values_are_of_any_type() {
    let mut names: IntervalMap<char, String> = IntervalMap::new();
    names.insert('a'..='z', "small".to_owned());
    names.insert('m'..='m', "em".to_owned());
    names.insert('m', "small".to_owned());
    assert_eq!(names.get_run('q').unwrap(), ('a'..='z', &"small".to_owned()));
    let sets = IntervalMap::from([(Full(200u8)..=Full(255), IntervalSet::from([1..=2]))]);
    assert_eq!(sets.get(255.into()), Some(&IntervalSet::from([1..=2])));
    let units = IntervalMap::from([(1..=2u64, ()), (3..=4, ())]);
    assert_eq!(units.iter().collect::<Vec<_>>(), [(1..=4, &())]);
    let maps = IntervalMap::from([(1..=2u64, BTreeMap::from([(1, 'a')])), (3..=4, BTreeMap::new())]);
    assert_eq!(maps.interval_count(), 2);
    let maybe = IntervalMap::from([(1..=2i8, Some(1)), (3..=4, None), (5..=6, None)]);
    assert_eq!(maybe.iter().collect::<Vec<_>>(), [(1..=2, &Some(1)), (3..=6, &None)]);
}

#[test]
fn entries_by_value_are_not_copied() {
    #[derive(PartialEq, Eq, Debug)]
    struct Single(u8);

    impl Clone for Single {
        fn clone(&self) -> Self {
            panic!("a copy of {}", self.0)
        }
    }

    // later ranges hide parts of others, but none has numbers on both sides of a later one
    let list =
        [(4..=6u8, Single(2)), (20..=29, Single(5)), (22..=24, Single(6)), (1..=3, Single(1)), (21..=40, Single(7))];
    let mut map = IntervalMap::from(list);
    map.insert(5..=9, Single(3));
    map.retain(|run, _| *run.start() > 1);
    let wanted = [(4..=4, Single(2)), (5..=9, Single(3)), (20..=20, Single(5)), (21..=40, Single(7))];
    assert_eq!(map.into_iter().collect::<Vec<_>>(), wanted);
}

#[test]
fn iterators_have_names_and_go_both_ways() {
    struct Walks<'a>(Iter<'a, u8, char>, Values<'a, u8, char>, IntoIter<u8, char>);
    let map = IntervalMap::from([(1..=2u8, 'a'), (3..=4, 'b'), (9..=9, 'c')]);
    let mut walks = Walks(map.iter(), map.values(), map.clone().into_iter());
    assert_eq!(
        format!("{:?} {:?} {:?}", walks.0, walks.1, walks.2),
        "Iter {1..=2: 'a', 3..=4: 'b', 9..=9: 'c'} Values ['a', 'b', 'c'] IntoIter {1..=2: 'a', 3..=4: 'b', 9..=9: 'c'}"
    );
    assert_eq!((walks.0.len(), walks.1.size_hint(), walks.2.len()), (3, (3, Some(3)), 3));
    assert_eq!(
        (walks.0.next_back(), walks.1.next_back(), walks.2.next_back()),
        (Some((9..=9, &'c')), Some(&'c'), Some((9..=9, 'c')))
    );
    assert_eq!((walks.0.next(), walks.1.next(), walks.2.next()), (Some((1..=2, &'a')), Some(&'a'), Some((1..=2, 'a'))));
    assert_eq!(
        (walks.0.clone().last(), walks.1.clone().count(), walks.2.clone().last()),
        (Some((3..=4, &'b')), 1, Some((3..=4, 'b')))
    );
    assert_eq!((walks.0.nth(1), walks.1.nth_back(1), walks.2.nth(1)), (None, None, None));
    assert_eq!((walks.0.next(), walks.1.next_back(), walks.2.next_back()), (None, None, None));
    assert_eq!((map.iter().nth(1), map.values().nth_back(1)), (Some((3..=4, &'b')), Some(&'b')));
    assert_eq!(
        (map.clone().into_iter().nth(2), map.clone().into_iter().nth_back(1)),
        (Some((9..=9, 'c')), Some((3..=4, 'b')))
    );
    assert_eq!(map.iter().fold(0, |sum, (run, _)| sum + run.count()), 5);
    assert_eq!((&map).into_iter().rev().map(|(_, value)| *value).collect::<String>(), "cba");
    let again: IntervalMap<u8, char> = map.clone().into_iter().collect();
    assert_eq!(again, map);
}

#[test]
fn maps_are_compared_hashed_and_written_by_entries() {
    let map = Map::from([(1..=5, "anna"), (8..=9, "bela")]);
    let other = Map::from([(8..=9, "bela"), (1..=3, "anna"), (4..=5, "anna")]);
    assert!(
        map == other && map != Map::from([(1..=5, "anna"), (8..=9, "anna")]) && map != Map::from([(1..=5, "anna")])
    );
    let keys: HashSet<Map<&str>> = HashSet::from([map.clone(), other, Map::empty(), Map::default()]);
    assert_eq!(keys.len(), 2);
    assert_eq!(format!("{map:?}"), r#"{1..=5: "anna", 8..=9: "bela"}"#);
    let counts: HashMap<&str, usize> = map.iter().map(|(run, name)| (*name, run.count())).collect();
    assert_eq!(counts, HashMap::from([("anna", 5), ("bela", 2)]));
}

/// 3,000 entries, and edits in their midst.
#[test]
fn many_entries() {
    let mut map: Map<i32> = (0..3_000).map(|i| (10 * i..10 * i + 10, i % 3)).collect();
    assert_eq!((map.interval_count(), map.size(), map.keys()), (3_000, 30_000, IntervalSet::from(0..30_000)));
    map.insert(4_990..25_010, 7);
    assert_eq!((map.interval_count(), map.get_run(5_000)), (499 + 1 + 499, Some((4_990..=25_009, &7))));
    map.remove(10_000..10_001);
    assert_eq!((map.interval_count(), map.get(9_999), map.get(10_000)), (1_000, Some(&7), None));
    map.update(.., |_| 1);
    assert_eq!(told(&map), [(0, 9_999, 1), (10_001, 29_999, 1)]);
    let falling: Map<i32> = (0..3_000).rev().map(|i| (10 * i..10 * i + 10, i % 3)).collect();
    let parts = falling.restrict_to(&(0..3_000).map(|i| 10 * i + 4..10 * i + 6).collect::<IntervalSet<i32>>());
    assert_eq!((parts.interval_count(), parts.size()), (3_000, 6_000));
    assert_eq!(falling.merge(&parts, |x, y| x + y).interval_count(), 3_000 + 2 * 2_000);
}

/// Each other call of 2,000 entries, of five numbers each and five free ones before the next.
#[test]
fn calls_of_many_entries() {
    let map: Map<i32> = (0..2_000).map(|i| (10 * i..10 * i + 5, i)).collect();
    let (some, all) = (IntervalSet::from(5_002..15_002), IntervalSet::from(0..20_000));
    assert!(map.clone() == map && Map::from(map.iter().map(|(run, i)| (run, *i)).collect::<Vec<_>>()) == map);
    assert_eq!((map.get(10_004), map.get(10_005), map.contains(19_994)), (Some(&1_000), None, true));
    assert_eq!(map.get_run(15_002), Some((15_000..=15_004, &1_500)));
    assert_eq!((map.first(), map.last()), (Some((0..=4, &0)), Some((19_990..=19_994, &1_999))));
    assert_eq!((map.next_from(10_005), map.previous_to(10_009)), (map.get_run(10_010), map.get_run(10_000)));
    assert_eq!(
        (map.iter().len(), map.values().next_back(), map.clone().into_iter().len()),
        (2_000, Some(&1_999), 2_000)
    );
    assert_eq!(
        (map.keys().interval_count(), map.size(), all.difference(&map.keys()).interval_count()),
        (2_000, 10_000, 2_000)
    );
    assert_eq!(map.numbers_with(|i| i % 2 == 1).size(), 5_000);
    assert_eq!((map.gaps_within(0..20_000), map.gaps_within(5..=5).size()), (all.difference(&map.keys()), 1));
    assert_eq!((map.first_fit(2.., 5), map.first_fit(..20_000, 6)), (Some(5..=9), Some(-i32::MAX..=-i32::MAX + 5)));
    assert_eq!((map.first_fit(0..20_000, 6), map.first_fit(0.., 6)), (None, Some(19_995..=20_000)));
    assert_eq!((map.overlapping(5_004..15_001).count(), map.overlapping(..).count()), (1_001, 2_000));
    assert_eq!((map.cut_to(5_002..15_002).interval_count(), map.cut_to(5_002..15_002).size()), (1_001, 5_000));
    assert_eq!((map.restrict_to(&some), map.without(&some).interval_count()), (map.cut_to(5_002..15_002), 1_001));
    assert_eq!(map.without(&some).merge(&map.restrict_to(&some), |_, _| unreachable!()), map);
    assert_eq!((map.merge(&map, |x, y| x + y).get(15_001), format!("{map:?}").len() > 20_000), (Some(&3_000), true));

    let middles: IntervalSet<i32> = (0..2_000).map(|i| 10 * i + 2).collect();
    let (mut cut, mut written, mut kept) = (map.clone(), map.clone(), map.clone());
    assert!(cut.remove_set(&middles) && cut == map.without(&middles) && cut.interval_count() == 4_000);
    written.insert_set(&middles, -1);
    assert_eq!(
        (written.interval_count(), written.get(10_002), written.without(&middles)),
        (6_000, Some(&-1), cut.clone())
    );
    kept.retain(|_, i| i % 2 == 1);
    assert_eq!((kept.interval_count(), kept.numbers_with(|i| i % 2 == 0).size()), (1_000, 0));
    cut.append(&mut kept);
    assert_eq!(
        (cut.interval_count(), cut.split_off(10_000).interval_count(), cut.interval_count()),
        (3_000, 1_500, 1_500)
    );
    assert_eq!(Map::merge_of([&map, &written, &map], |x, y| x + y).get(10_002), Some(&1_999));

    let mut edited = map.clone();
    assert_eq!(edited.insert_if_free(10_005..=10_009, -1), Ok(()));
    assert_eq!(edited.insert_if_free(10_009..=10_020, -1), Err((10_005..=10_009, &-1)));
    assert!(edited.insert_if_free(10_015..=10_019, 1_001).is_ok() && edited.interval_count() == 2_001);
    edited.insert(10_002, -2);
    assert!(edited.remove(5_003) && !edited.remove(5_003..=5_003) && edited.interval_count() == 2_004);
    edited.update(10_000..10_010, |i| i - 10);
    assert_eq!((edited.get(10_001), edited.get(10_002), edited.get(10_005)), (Some(&990), Some(&-12), Some(&-11)));
    edited.extend((0..2_000).map(|i| (10 * i + 5..10 * i + 10, i)));
    assert_eq!((edited.checked_insert(5_003, 500), edited.get_run(5_000)), (Some(()), Some((5_000..=5_009, &500))));
    assert_eq!((edited.checked_extend(map), edited.interval_count(), edited.size()), (Some(()), 2_000, 20_000));
    edited.clear();
    assert!(edited.is_empty() && edited == Map::new());
}

/// A value whose comparison or copy panics when it is told to.
#[derive(Debug)]
struct Touchy(u8);

thread_local! {
    static COPIES_LEFT: std::cell::Cell<i32> = const { std::cell::Cell::new(i32::MAX) };
    static LOOKS_LEFT: std::cell::Cell<i32> = const { std::cell::Cell::new(i32::MAX) };
}

fn spend(left: &std::cell::Cell<i32>) {
    assert!(left.get() > 0, "no more");
    left.set(left.get() - 1);
}

impl Clone for Touchy {
    fn clone(&self) -> Self {
        COPIES_LEFT.with(spend);
        Touchy(self.0)
    }
}

impl PartialEq for Touchy {
    fn eq(&self, other: &Self) -> bool {
        LOOKS_LEFT.with(spend);
        self.0 == other.0
    }
}

impl Eq for Touchy {}

/// After a panic of a value's own code a map still has ascending entries, and numbers that the edit did not name keep their values.
#[test]
fn a_value_that_panics_leaves_a_map() {
    for (copies, looks) in [(0, 9), (1, 0), (1, 1), (9, 9)] {
        let mut map = Map::new();
        [(0..10, 1), (10..20, 2), (20..30, 1)].into_iter().for_each(|(range, value)| map.insert(range, Touchy(value)));
        COPIES_LEFT.set(copies);
        LOOKS_LEFT.set(looks);
        let is_split = panic::catch_unwind(AssertUnwindSafe(|| map.insert(14..=16, Touchy(9)))).is_ok();
        let is_joined = panic::catch_unwind(AssertUnwindSafe(|| map.insert(10..20, Touchy(1)))).is_ok();
        COPIES_LEFT.set(i32::MAX);
        LOOKS_LEFT.set(i32::MAX);
        let runs: Vec<_> = map.iter().map(|(run, _)| run).collect();
        assert!(runs.windows(2).all(|pair| pair[0].end() < pair[1].start()));
        assert!(
            (0..10).chain(20..30).all(|x| map.get(x).is_some_and(|value| value.0 == 1)),
            "{copies} {looks}: {map:?}"
        );
        assert_eq!((copies, looks) == (9, 9), is_split && is_joined);
    }
}

/// A value whose drop panics when it is told to.
#[derive(PartialEq, Eq, Debug)]
struct Dropped(u8);

thread_local! {
    static DROPS_LEFT: std::cell::Cell<i32> = const { std::cell::Cell::new(i32::MAX) };
}

impl Drop for Dropped {
    fn drop(&mut self) {
        let left = DROPS_LEFT.get();
        DROPS_LEFT.set(if left == 0 { i32::MAX } else { left - 1 });
        assert!(left != 0, "a drop of {}", self.0);
    }
}

impl MapValue for Dropped {
    fn try_copy(&self) -> Result<Self, AllocError> {
        Ok(Dropped(self.0))
    }
}

/// What goes is dropped once the entries lie apart, so a panic in it leaves a list of maximal entries.
#[test]
fn a_drop_that_panics_leaves_maximal_entries() {
    type Proved = proved::ivl_map::IntervalMap<i32, Dropped>;
    let of = |lower, upper| Interval::new(lower, upper);
    let edits: [fn(&mut Proved, Interval<i32>); 3] = [
        |map, part| map.insert(part, Dropped(1)).unwrap(),
        |map, part| map.insert(part, Dropped(9)).unwrap(),
        |map, part| map.remove(part).unwrap(),
    ];
    let mut panics = 0;
    for edit in edits {
        for (lower, upper) in (0..30).flat_map(|lower| (lower..30).map(move |upper| (lower, upper))) {
            for drops in 0..6 {
                let mut map = Proved::empty(Global);
                for (part, value) in [(of(1, 4), 1), (of(5, 9), 2), (of(12, 14), 3), (of(15, 19), 1), (of(22, 25), 2)] {
                    map.insert(part, Dropped(value)).unwrap();
                }
                DROPS_LEFT.set(drops);
                panics +=
                    i32::from(panic::catch_unwind(AssertUnwindSafe(|| edit(&mut map, of(lower, upper)))).is_err());
                DROPS_LEFT.set(i32::MAX);
                let apart = |a: &(Interval<i32>, Dropped), b: &(Interval<i32>, Dropped)| {
                    a.0.upper() + i32::from(a.1 == b.1) < b.0.lower()
                };
                let entries = map.entries();
                assert!(
                    entries.windows(2).all(|pair| apart(&pair[0], &pair[1])),
                    "{lower}..={upper}, drop {drops}: {entries:?}"
                );
            }
        }
    }
    assert!(panics > 500, "{panics}");
}
