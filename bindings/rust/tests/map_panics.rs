//! Code of a value, or a function that an edit asks, panics at each place of each edit in turn: then a map is still the list of its
//! longest entries. Numbers that the edit did not name keep their values, but for those of an entry that was to be joined with it,
//! which may have none.
use intervallum::{IntervalMap, IntervalSet};
use std::cell::Cell;
use std::ops::RangeInclusive;
use std::panic::{self, AssertUnwindSafe};
use std::thread;

thread_local! {
    /// How many steps are left until one panics; none does at `usize::MAX`.
    static LEFT: Cell<usize> = const { Cell::new(usize::MAX) };
}

/// A step of the code of a value. A second panic at once would end the process.
fn step(what: &'static str) {
    if LEFT.get() != usize::MAX && !thread::panicking() {
        LEFT.set(LEFT.get() - 1);
        if LEFT.get() == 0 {
            LEFT.set(usize::MAX);
            // of thousands of panics none needs to be told
            panic::resume_unwind(Box::new(what));
        }
    }
}

#[derive(Debug)]
struct Touchy(u32);

impl Clone for Touchy {
    fn clone(&self) -> Self {
        step("clone");
        Touchy(self.0)
    }
}

impl PartialEq for Touchy {
    fn eq(&self, other: &Self) -> bool {
        step("eq");
        self.0 == other.0
    }
}

impl Eq for Touchy {}

impl Drop for Touchy {
    fn drop(&mut self) {
        step("drop");
    }
}

type Map = IntervalMap<u8, Touchy>;

const LAST: u8 = 12;

/// The value of each number.
fn values(map: &Map) -> Vec<Option<u32>> {
    (0..=LAST).map(|number| map.get(number).map(|value| value.0)).collect()
}

fn are_longest_entries(map: &Map) -> bool {
    let entries: Vec<_> = map.iter().collect();
    entries.iter().all(|(run, _)| run.start() <= run.end())
        && entries.windows(2).all(|pair| {
            let (end, next) = (*pair[0].0.end(), *pair[1].0.start());
            end < next && (end + 1 < next || pair[0].1.0 != pair[1].1.0)
        })
}

/// Makes an edit of the numbers of a range so often that each step of it has panicked once, and returns the number of steps.
fn at_each_step(entries: &[(RangeInclusive<u8>, u32)], range: RangeInclusive<u8>, edit: impl Fn(&mut Map)) -> usize {
    for steps in 1.. {
        let mut map: Map = entries.iter().map(|(run, value)| (run.clone(), Touchy(*value))).collect();
        let before = values(&map);
        LEFT.set(steps);
        let told = panic::catch_unwind(AssertUnwindSafe(|| edit(&mut map)));
        LEFT.set(usize::MAX);
        assert!(are_longest_entries(&map), "{entries:?}, {range:?}, step {steps}: {told:?}, {map:?}");
        let touches = |run: &RangeInclusive<u8>| *run.start() <= *range.end() + 1 && *range.start() <= *run.end() + 1;
        for number in (0..=LAST).filter(|number| !range.contains(number)) {
            let (now, then) = (map.get(number).map(|value| value.0), before[usize::from(number)]);
            let is_joined = told.is_err() && entries.iter().any(|(run, _)| run.contains(&number) && touches(run));
            assert!(
                now == then || is_joined && now.is_none(),
                "{entries:?}, {range:?}, step {steps}: {told:?}, {map:?} at {number}"
            );
        }
        if told.is_ok() {
            return steps - 1;
        }
    }
    unreachable!("an edit has an end")
}

/// Maps whose entries touch, or not, with equal values on two sides of each.
const MAPS: [&[(RangeInclusive<u8>, u32)]; 6] = [
    &[],
    &[(0..=12, 1)],
    &[(1..=3, 2), (7..=9, 1)],
    &[(0..=2, 1), (3..=3, 2), (4..=6, 1), (8..=8, 1), (10..=12, 2)],
    &[(0..=0, 1), (2..=2, 2), (3..=4, 1), (5..=5, 3), (6..=7, 2), (9..=9, 1), (10..=12, 3)],
    &[(1..=1, 1), (2..=2, 2), (3..=3, 1), (4..=4, 2), (5..=5, 1), (6..=6, 2), (7..=7, 1)],
];

/// Makes an edit of each range of each map, and returns the number of steps that panicked.
fn everywhere(edit: impl Fn(&mut Map, RangeInclusive<u8>)) -> usize {
    let ranges = (0..=LAST).flat_map(|lower| (lower..=LAST).map(move |upper| lower..=upper));
    let places = MAPS.iter().flat_map(|entries| ranges.clone().map(move |range| (entries, range)));
    places.map(|(entries, range)| at_each_step(entries, range.clone(), |map| edit(map, range.clone()))).sum()
}

#[test]
fn edits_of_a_range() {
    for value in 1..=3 {
        assert!(everywhere(|map, range| map.insert(range, Touchy(value))) > 1000);
        assert!(everywhere(|map, range| _ = map.insert_if_free(range, Touchy(value)).is_ok()) > 300);
    }
    assert!(everywhere(|map, range| _ = map.remove(range)) > 500);
}

#[test]
fn edits_by_a_function_and_of_more_entries() {
    let halved = |map: &mut Map, range| {
        map.update(range, |value| {
            step("function");
            Touchy(value.0 / 2)
        })
    };
    assert!(everywhere(halved) > 1000);
    let both = |map: &mut Map, range: RangeInclusive<u8>| {
        let end = *range.end();
        map.extend([(range, Touchy(1)), (end..=end, Touchy(2)), (end..=end, Touchy(1))]);
    };
    assert!(everywhere(both) > 1000);
    for entries in MAPS {
        assert_eq!(at_each_step(entries, 0..=LAST, IntervalMap::clear), entries.len());
    }
}

#[test]
fn edits_by_sets_and_of_all_entries() {
    let changed = |map: &mut Map, range| {
        map.combine(range, |old| {
            step("function");
            old.map_or(Some(Touchy(1)), |old| (old.0 != 2).then(|| Touchy(old.0 + 1)))
        })
    };
    assert!(everywhere(changed) > 1000);
    let set =
        |range: RangeInclusive<u8>| IntervalSet::from([*range.start()..=*range.start(), *range.end()..=*range.end()]);
    assert!(everywhere(|map, range| map.insert_set(&set(range), Touchy(2))) > 1000);
    assert!(everywhere(|map, range| _ = map.remove_set(&set(range))) > 100);
    for entries in MAPS {
        for at in 0..=LAST {
            at_each_step(entries, at..=LAST, |map| _ = map.split_off(at));
            at_each_step(entries, 0..=LAST, |map| {
                map.retain(|run, value| {
                    step("function");
                    *run.start() > at || value.0 == 2
                })
            });
            at_each_step(entries, at..=LAST, |map| map.append(&mut Map::from([(at..=LAST, Touchy(1))])));
        }
    }
}

/// Where writes one by one would move many entries, the map is made anew: what panics leaves all as it was, or as it was to be.
#[test]
fn edits_of_many_entries_at_once() {
    let entries = || (0..84u8).map(|i| (3 * i..=3 * i + 1, Touchy(u32::from(i))));
    let writes = || (0..84u8).map(|i| (3 * i + 1..=3 * i + 2, Touchy(u32::from(i) / 2)));
    let told = |map: &Map| map.iter().map(|(run, value)| (run, value.0)).collect::<Vec<_>>();
    type Edit = fn(&mut Map, Vec<(RangeInclusive<u8>, Touchy)>);
    let edits: [Edit; 3] = [
        |map, writes| map.extend(writes),
        |map, writes| map.append(&mut writes.into_iter().collect()),
        |map, writes| _ = map.remove_set(&writes.into_iter().map(|(run, _)| run).collect::<IntervalSet<u8>>()),
    ];
    for edit in edits {
        let (before, mut wanted) = (entries().collect::<Map>(), entries().collect::<Map>());
        edit(&mut wanted, writes().collect());
        for steps in 1.. {
            let (mut map, writes) = (entries().collect::<Map>(), writes().collect());
            LEFT.set(steps);
            let made = panic::catch_unwind(AssertUnwindSafe(|| edit(&mut map, writes)));
            LEFT.set(usize::MAX);
            assert!([told(&before), told(&wanted)].contains(&told(&map)), "step {steps}: {made:?}, {map:?}");
            if made.is_ok() {
                assert!(steps > 100 && told(&map) == told(&wanted));
                break;
            }
        }
    }
}

#[test]
fn an_entry_that_grows_over_others() {
    let entries = [(7..=9, 2), (15..=19, 1)];
    let mut map = Map::new();
    for steps in 1.. {
        map = entries.iter().map(|(run, value)| (run.clone(), Touchy(*value))).collect();
        LEFT.set(steps);
        let told = panic::catch_unwind(AssertUnwindSafe(|| map.insert(9..=14, Touchy(1))));
        LEFT.set(usize::MAX);
        if told.unwrap_err().downcast_ref::<&str>() == Some(&"drop") {
            break;
        }
    }
    // the entry that takes the place of another stands there when that one's value is dropped
    assert_eq!(map.iter().map(|(run, value)| (run, value.0)).collect::<Vec<_>>(), [(7..=8, 2), (9..=19, 1)]);
    assert_eq!(map.gaps_within(7..=19), IntervalSet::empty());
}
