//! Each request for memory of the proved map's calls is refused in turn: the call tells it, and the map is unchanged.
use intervallum::proved::ivl_map::{IntervalMap, MapValue};
use intervallum::proved::prelude::*;
use intervallum::proved::{AllocError, Global, Interval};
use intervallum::rattle::boxed::Box as ProvedBox;
use intervallum::rattle::vec::Vec as ProvedVec;

mod memory;
use memory::{Watched, cost, refusing};

#[global_allocator]
static ALLOCATOR: Watched = Watched;

/// A value whose copy asks for memory.
#[derive(PartialEq, Eq)]
struct Boxed(ProvedBox<i32>);

impl Boxed {
    fn of(number: i32) -> Self {
        Boxed(ProvedBox::new(Global, number).unwrap())
    }
}

impl MapValue for Boxed {
    fn try_copy(&self) -> Result<Self, AllocError> {
        Ok(Boxed(ProvedBox::new(Global, *self.0)?))
    }
}

type Map = IntervalMap<i64, Boxed>;

/// The entries of a map.
fn told(map: &Map) -> Vec<(i64, i64, i32)> {
    map.entries().iter().map(|(run, value)| (run.lower(), run.upper(), *value.0)).collect()
}

/// Ten entries, of which each has five numbers and a gap of two before the next.
fn ten() -> Map {
    let mut map = Map::empty(Global);
    for i in 0..10 {
        map.insert(Interval::new(7 * i, 7 * i + 4), Boxed::of(i as i32)).unwrap();
    }
    map
}

/// Entries to be written, the last within another.
fn list() -> ProvedVec<(Interval<i64>, Boxed)> {
    let entry = |lower, upper, value| (Interval::new(lower, upper), Boxed::of(value));
    vec![entry(100, 120, 1), entry(200, 220, 2), entry(105, 110, 3)].into()
}

fn set() -> IntervalSet<i64> {
    [(1, 2), (4, 8), (15, 30)].to_interval_set(Global).unwrap()
}

/// An edit of a map, which is told what it writes, made beforehand.
type Edit = fn(&mut Map, Boxed, ProvedVec<(Interval<i64>, Boxed)>) -> Result<(), AllocError>;

const EDITS: [(&str, bool, Edit); 8] = [
    ("insert", true, |map, value, _| map.insert(Interval::new(50, 55), value)),
    ("insert within an entry", true, |map, value, _| map.insert(Interval::new(15, 16), value)),
    ("insert above", true, |map, value, _| map.insert(Interval::new(100, 200), value)),
    ("insert_if_free", true, |map, value, _| {
        map.insert_if_free(Interval::new(5, 5), value).map(|met| assert!(met.is_none()))
    }),
    ("remove within an entry", true, |map, _, _| map.remove(Interval::new(15, 16))),
    ("update", true, |map, _, _| {
        map.update(Interval::new(3, 30), |value| Ok(Boxed(ProvedBox::new(Global, *value.0 / 2)?)))
    }),
    ("update that fails", true, |map, _, _| {
        map.update(Interval::new(3, 30), |value| if *value.0 == 3 { Err(AllocError) } else { value.try_copy() })
    }),
    ("extend", false, |map, _, list| map.extend(list)),
];

/// An edit that is refused leaves the map as it was, but for `extend`, which has written the first entries of its list.
#[test]
fn edits() {
    let before = told(&ten());
    for (name, is_one, edit) in EDITS {
        let (mut refused, mut errors) = (0, 0);
        for number in 0.. {
            // a map that is copied has no room for more
            let (mut map, value, list) = (ten().try_clone().unwrap(), Boxed::of(77), list());
            let (made, is_refused) = refusing(number, || edit(&mut map, value, list));
            map.in_order();
            if made.is_err() && is_one {
                assert!(told(&map) == before, "{name}: {number}");
            }
            let kept: Vec<_> = told(&map).into_iter().filter(|entry| entry.0 < 100).collect();
            assert!(is_one || kept == before, "{name}: {number}");
            errors += usize::from(made.is_err());
            if !is_refused {
                assert_eq!((made.is_err(), told(&map) == before), (name.ends_with("fails"), name.ends_with("fails")));
                break;
            }
            refused += 1;
        }
        assert!(refused > 0 && errors >= refused, "{name}: {refused}, {errors}");
    }
}

#[test]
fn edits_that_need_no_memory_are_not_refused() {
    let edits: [(&str, Edit); 6] = [
        ("insert over an entry", |map, value, _| map.insert(Interval::new(50, 60), value)),
        ("remove of whole entries", |map, _, _| map.remove(Interval::new(10, 40))),
        ("remove of nothing", |map, _, _| map.remove(Interval::new(5, 6))),
        ("insert of nothing", |map, value, _| map.insert(Interval::empty(), value)),
        ("insert_if_free in the way", |map, value, _| {
            map.insert_if_free(Interval::new(12, 20), value).map(|met| assert!(met == Some(Interval::new(14, 18))))
        }),
        ("clear", |map, _, _| {
            map.clear();
            Ok(())
        }),
    ];
    for (name, edit) in edits {
        // a map that is copied has no room for more
        let (mut map, value, list) = (ten().try_clone().unwrap(), Boxed::of(77), list());
        let (made, told) = cost(|| edit(&mut map, value, list));
        assert!(made.is_ok() && told.allocations == 0, "{name}: {told:?}");
    }
}

/// A question that asks for memory, and whether its answer is right.
type Question = fn(&Map, &IntervalSet<i64>) -> Result<bool, AllocError>;

const QUESTIONS: [(&str, Question); 9] = [
    ("try_clone", |map, _| Ok(map.try_clone()? == *map)),
    ("keys", |map, _| Ok(map.keys()?.interval_count() == 10)),
    ("numbers_with", |map, _| Ok(map.numbers_with(|value| *value.0 > 4)?.interval_count() == 5)),
    ("gaps_within", |map, _| Ok(map.gaps_within(Interval::new(0, 100))?.interval_count() == 10)),
    ("cut_to", |map, _| Ok(map.cut_to(Interval::new(3, 16))?.interval_count() == 3)),
    ("restrict_to", |map, set| Ok(map.restrict_to(set)?.interval_count() == 6)),
    ("without", |map, set| Ok(map.without(set)?.interval_count() == 10)),
    ("merge", |map, _| {
        let sum = |v: &Boxed, w: &Boxed| Ok(Boxed(ProvedBox::new(Global, *v.0 + *w.0)?));
        Ok(map.merge(&map.cut_to(Interval::new(3, 16))?, sum)?.interval_count() == 11)
    }),
    ("of, from_entries", |_, _| {
        let (one, list) =
            (Map::of(Global, Interval::new(1, 5), Boxed(ProvedBox::new(Global, 1)?))?, ProvedVec::new(Global));
        Ok(one.interval_count() == 1 && Map::from_entries(Global, list)?.is_empty())
    }),
];

#[test]
fn questions() {
    let (map, set, before) = (ten(), set(), told(&ten()));
    for (name, ask) in QUESTIONS {
        let mut refused = 0;
        for number in 0.. {
            let ((made, is_refused), cost) = cost(|| refusing(number, || ask(&map, &set)));
            assert!(told(&map) == before && cost.held == 0, "{name}: {cost:?}");
            if !is_refused {
                assert_eq!(made, Ok(true), "{name}");
                break;
            }
            refused += 1;
            assert!(made.is_ok_and(|is_right| is_right) || made.is_err(), "{name}");
        }
        assert!(refused > 0, "{name}");
    }
}

#[test]
fn a_search_for_room_needs_no_memory() {
    let map = ten();
    let (fits, told) = cost(|| [2, 3].map(|count| map.first_fit(Interval::new(0, 100), count).unwrap()));
    assert_eq!((fits, told.allocations), ([Some(Interval::new(5, 6)), Some(Interval::new(68, 70))], 0));
}

/// The impls of values beside the numbers.
#[test]
fn values_are_copied_or_an_error() {
    fn copied<V: MapValue>(value: V, requests: isize) {
        for number in 0..requests {
            assert!(matches!(refusing(number, || value.try_copy()), (Err(AllocError), true)));
        }
        let (copy, is_refused) = refusing(requests, || value.try_copy());
        assert!(copy.is_ok_and(|copy| copy == value) && !is_refused);
    }
    let text = || "a text".to_owned();
    copied(text(), 1);
    copied(set(), 1);
    copied((text(), Some(set())), 2);
    copied((Some('a'), (7u64, true)), 0);
    copied(None::<String>, 0);
}

/// An edit allocates at most twice: for the entries, and for the copy of a value that it splits.
#[test]
fn what_an_edit_asks_for() {
    let mut map = ten();
    let (value, other) = (Boxed::of(77), Boxed::of(78));
    let (_, first) = cost(|| map.insert(Interval::new(15, 16), value).unwrap());
    assert!(first.allocations <= 2, "{first:?}");
    let (_, second) = cost(|| map.insert(Interval::new(22, 22), other).unwrap());
    assert!(second.allocations <= 2, "{second:?}");
}
