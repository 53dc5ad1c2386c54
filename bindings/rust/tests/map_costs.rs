//! What the docs say of maps and no contract can see, by counting: how often a function is asked, and of which entries, which values
//! are copied, that room is kept, and how many bounds are looked at.
// counts of bytes are of 64 bits
#![cfg(target_pointer_width = "64")]

use intervallum::proved::Global;
use intervallum::proved::ivl_map::IntervalMap as ProvedMap;
use intervallum::proved::prelude::*;
use intervallum::{IntervalMap, IntervalSet};
use std::cell::{Cell, RefCell};
use std::cmp::Ordering;
use std::ops::RangeInclusive;

mod memory;
use memory::{Watched, cost};

#[global_allocator]
static ALLOCATOR: Watched = Watched;

type Map<V> = IntervalMap<i32, V>;

/// Well above each constant in the code.
const ENTRIES: i32 = 1_200;

/// Entry `i` has five numbers from `10 * i` on, and what `value` says of `i`.
fn spread<V: Clone + Eq>(value: impl Fn(i32) -> V) -> Map<V> {
    (0..ENTRIES).map(|i| (10 * i..=10 * i + 4, value(i))).collect()
}

/// The entries of `spread` that have numbers of a range.
fn met(range: &RangeInclusive<i32>) -> Vec<i32> {
    (0..ENTRIES).filter(|i| 10 * i <= *range.end() && *range.start() <= 10 * i + 4 && !range.is_empty()).collect()
}

/// Ranges that meet none of the entries, parts of one, whole ones and all.
fn ranges() -> [RangeInclusive<i32>; 10] {
    let end = 10 * ENTRIES;
    [
        -5..=-1,
        5..=9,
        0..=0,
        4..=10,
        3..=5,
        6_000..=6_004,
        6_002..=6_002,
        6_001..=7_003,
        end - 7..=end + 7,
        -i32::MAX..=i32::MAX,
    ]
}

#[test]
fn update_asks_once_for_each_entry_of_the_range_and_no_other() {
    for range in ranges() {
        let (mut map, asked) = (spread(|i| i), RefCell::new(Vec::new()));
        map.update(range.clone(), |value| {
            asked.borrow_mut().push(*value);
            -value - 1
        });
        assert_eq!(asked.into_inner(), met(&range), "{range:?}");
    }
}

#[test]
#[expect(clippy::reversed_empty_ranges, reason = "an empty range is an argument")]
fn an_empty_range_asks_nothing() {
    for range in [5..=4, 4..=3, 6_003..=6_002, i32::MAX..=0] {
        spread(|i| i).update(range, |_| unreachable!());
    }
}

#[test]
fn numbers_with_asks_once_for_each_entry() {
    let (map, asked) = (spread(|i| i), RefCell::new(Vec::new()));
    let odd = map.numbers_with(|value| {
        asked.borrow_mut().push(*value);
        value % 2 == 1
    });
    assert_eq!((asked.into_inner(), odd.interval_count()), ((0..ENTRIES).collect(), ENTRIES as usize / 2));
}

#[test]
fn merge_asks_once_for_each_two_entries_with_a_number_in_common() {
    let map = spread(|i| i);
    // each third of these meets two entries, the next one, and the third lies between two
    let other: Map<i32> = (0..ENTRIES - 1)
        .map(|i| (i, 10 * i))
        .map(|(i, from)| match i % 3 {
            0 => (from + 3..=from + 10, -i),
            1 => (from + 2..=from + 2, -i),
            _ => (from + 6..=from + 8, -i),
        })
        .collect();
    let mut wanted = Vec::new();
    for (run, v) in map.iter() {
        for (other_run, w) in other.iter() {
            if run.start() <= other_run.end() && other_run.start() <= run.end() {
                wanted.push((*v, *w));
            }
        }
    }
    let mut asked = Vec::new();
    let made = map.merge(&other, |v, w| {
        asked.push((*v, *w));
        0
    });
    assert!(asked == wanted && wanted.len() == ENTRIES as usize && made.get(10) == Some(&0));
}

thread_local! {
    static COPIES: Cell<usize> = const { Cell::new(0) };
}

/// A value that counts its copies.
#[derive(PartialEq, Eq)]
struct Copied(i32);

impl Clone for Copied {
    fn clone(&self) -> Self {
        COPIES.set(COPIES.get() + 1);
        Copied(self.0)
    }
}

/// How often a call copied a value.
fn copies<T>(call: impl FnOnce() -> T) -> usize {
    COPIES.set(0);
    call();
    COPIES.get()
}

/// A map of values that count, and no copies made of it.
fn watched() -> Map<Copied> {
    spread(Copied)
}

#[test]
fn edits_copy_a_value_only_where_they_split_its_entry() {
    type Edit = fn(&mut Map<Copied>);
    let edits: [(&str, usize, Edit); 21] = [
        ("insert in a gap", 0, |map| map.insert(6..=7, Copied(-1))),
        ("insert at the end", 0, |map| map.insert(99_999, Copied(-1))),
        ("insert that joins", 0, |map| map.insert(5..=9, Copied(0))),
        ("insert over an entry", 0, |map| map.insert(10..=14, Copied(-1))),
        ("insert over parts", 0, |map| map.insert(12..=52, Copied(-1))),
        ("insert over all", 0, |map| map.insert(.., Copied(-1))),
        ("insert within an entry", 1, |map| map.insert(6_001..=6_002, Copied(-1))),
        ("insert of an equal value within an entry", 0, |map| map.insert(6_001..=6_002, Copied(600))),
        ("insert_if_free in a gap", 0, |map| assert!(map.insert_if_free(6..=7, Copied(-1)).is_ok())),
        ("insert_if_free that joins", 0, |map| assert!(map.insert_if_free(5..=9, Copied(0)).is_ok())),
        ("insert_if_free in the way", 0, |map| assert!(map.insert_if_free(7..=11, Copied(-1)).is_err())),
        ("remove of parts", 0, |map| assert!(map.remove(12..=52))),
        ("remove within an entry", 1, |map| assert!(map.remove(6_001..=6_002))),
        ("update of whole entries", 2, |map| map.update(10..=24, |_| Copied(-1))),
        ("update of all", 0, |map| map.update(.., |value| Copied(-value.0))),
        ("update within an entry", 4, |map| map.update(6_001..=6_002, |_| Copied(-1))),
        ("update of nothing", 0, |map| map.update(6_005..=6_009, |_| unreachable!())),
        ("retain", 0, |map| map.retain(|_, value| value.0 % 2 == 0)),
        ("combine within an entry", 1, |map| map.combine(6_001..=6_002, |_| Some(Copied(-1)))),
        ("append above", 0, |map| map.append(&mut Map::from([(20_000..=20_001, Copied(-1))]))),
        ("extend", 1, |map| map.extend([(7..=8, Copied(-1)), (6_001..=6_002, Copied(-2)), (8..=8, Copied(-1))])),
    ];
    for (name, most, edit) in edits {
        let mut map = watched();
        let made = copies(|| edit(&mut map));
        assert!(made <= most, "{name}: {made} copies");
    }
}

#[test]
fn calls_that_return_a_map_copy_a_value_once_for_each_of_its_parts() {
    let all = ENTRIES as usize;
    let map = watched();
    assert_eq!(copies(|| map.clone()), all);
    assert_eq!(copies(|| map.cut_to(6_003..=6_041)), 5);
    let two_of_each: IntervalSet<i32> = (0..ENTRIES).flat_map(|i| [10 * i, 10 * i + 4]).collect();
    assert_eq!(copies(|| map.restrict_to(&two_of_each)), 2 * all);
    assert_eq!(copies(|| map.without(&two_of_each)), all);
    assert_eq!(copies(|| map.without(&map.keys())), 0);
    assert_eq!(copies(|| map.merge(&map, |value, _| Copied(value.0))), 0);
    assert_eq!(copies(|| map.merge(&Map::new(), |_, _| unreachable!())), all);
    // two numbers of each entry have a value of two, and the three that are left of it stand in a row
    let some: Map<Copied> = (0..ENTRIES).map(|i| (10 * i + 3..=10 * i + 4, Copied(-1))).collect();
    assert_eq!(copies(|| map.merge(&some, |_, _| Copied(-2))), all);
    assert_eq!(copies(|| watched().into_iter().count()), 0);
    assert_eq!(copies(|| map.keys().size() + map.numbers_with(|value| value.0 > 7).size() + map.size()), 0);
    assert_eq!(copies(|| map.gaps_within(0..=99).size() + map.overlapping(0..=99).count() as u32), 0);
}

#[test]
fn a_map_that_is_cleared_keeps_its_room() {
    let mut map = spread(|i| i);
    let ((), clearing) = cost(|| map.clear());
    let ((), filling) = cost(|| (0..ENTRIES).for_each(|i| map.insert(2 * i..=2 * i, i)));
    assert_eq!((clearing.allocations, clearing.held, filling.allocations), (0, 0, 0));
    assert_eq!(map.interval_count(), ENTRIES as usize);
}

thread_local! {
    static LOOKS: Cell<usize> = const { Cell::new(0) };
}

/// A number that counts how often one is compared or read.
#[derive(Clone, Copy, Debug)]
struct Counted(i64);

impl Counted {
    fn read(self) -> i64 {
        LOOKS.set(LOOKS.get() + 1);
        self.0
    }
}

impl PartialEq for Counted {
    fn eq(&self, other: &Counted) -> bool {
        self.read() == other.0
    }
}

impl Eq for Counted {}

impl PartialOrd for Counted {
    fn partial_cmp(&self, other: &Counted) -> Option<Ordering> {
        Some(self.cmp(other))
    }
}

impl Ord for Counted {
    fn cmp(&self, other: &Counted) -> Ordering {
        self.read().cmp(&other.0)
    }
}

impl Width for Counted {
    type Output = u64;

    fn min_value() -> Counted {
        Counted(-i64::MAX)
    }

    fn max_value() -> Counted {
        Counted(i64::MAX)
    }

    fn number(self) -> i128 {
        self.read().into()
    }

    fn from_number(number: i128) -> Option<Counted> {
        i64::try_from(number).ok().filter(|&number| number > i64::MIN).map(Counted)
    }
}

/// What a call returns, and how often it compared or read a bound.
fn looks<T>(call: impl FnOnce() -> T) -> (T, usize) {
    LOOKS.set(0);
    let made = call();
    (made, LOOKS.get())
}

fn of(lower: i64, upper: i64) -> Interval<Counted> {
    Interval::new(Counted(lower), Counted(upper))
}

const MANY: i64 = 4_096;

fn many() -> ProvedMap<Counted, i64> {
    let mut map = ProvedMap::empty(Global);
    (0..MANY).for_each(|i| map.insert(of(10 * i, 10 * i + 4), i).unwrap());
    map
}

/// A question of a place takes one binary search or two, and one look at each of the halves of 4,096 entries.
#[test]
fn questions_of_a_place_look_at_few_bounds() {
    let (map, halves) = (many(), 13);
    for i in [0, 1, 2, 1_000, 2_047, 2_048, MANY - 2, MANY - 1] {
        let (here, behind) = (Counted(10 * i + 2), Counted(10 * i + 7));
        let (found, told) = looks(|| map.get(&here).copied());
        assert!(found == Some(i) && told <= halves + 1, "get {i}: {told}");
        let (found, told) = looks(|| map.get_run(here).map(|(_, value)| *value));
        assert!(found == Some(i) && told <= halves + 1, "get_run {i}: {told}");
        let (found, told) = looks(|| map.next_from(here).map(|(_, value)| *value));
        assert!(found == Some(i) && told <= halves, "next_from {i}: {told}");
        let (found, told) = looks(|| map.previous_to(behind).map(|(_, value)| *value));
        assert!(found == Some(i) && told <= halves, "previous_to {i}: {told}");
        let (found, told) = looks(|| map.overlapping(of(10 * i + 2, 10 * i + 3)).len());
        assert!(found == 1 && told <= halves + 9, "overlapping {i}: {told}");
    }
    let (found, told) = looks(|| (map.first().is_some(), map.last().is_some(), map.interval_count()));
    assert_eq!((found, told), ((true, true, MANY as usize), 0));
}

/// A question of all entries looks at each a fixed number of times.
#[test]
fn questions_of_all_entries_look_at_each_a_few_times() {
    let map = many();
    let all = MANY as usize;
    let (found, told) = looks(|| map.keys().unwrap().interval_count());
    assert!(found == all && told <= 20 * all, "keys: {told}");
    let (found, told) = looks(|| map.numbers_with(|value| value % 2 == 0).unwrap().interval_count());
    assert!(found == all / 2 && told <= 10 * all, "numbers_with: {told}");
    let (found, told) = looks(|| map.gaps_within(of(-1, 10 * MANY)).unwrap().interval_count());
    assert!(found == all + 1 && told <= 50 * all, "gaps_within: {told}");
    let (found, told) = looks(|| map.size());
    assert!(found == 5 * MANY as u64 && told <= 7 * all, "size: {told}");
}
