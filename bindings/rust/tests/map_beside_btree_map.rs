//! Random calls of the root's map beside a `BTreeMap` of single numbers, and random edits beside an array of all numbers.
use intervallum::{Full, IntervalMap, IntervalSet, PagedSet};
use std::collections::BTreeMap;
use std::collections::hash_map::DefaultHasher;
use std::hash::{Hash, Hasher};
use std::ops::RangeInclusive;

type Map = IntervalMap<i32, u8>;
type Model = BTreeMap<i32, u8>;

const STEPS: u32 = 100_000;

/// A generator of random numbers: xorshift64*.
struct Random(u64);

impl Random {
    fn below(&mut self, end: u64) -> u64 {
        self.0 ^= self.0 >> 12;
        self.0 ^= self.0 << 25;
        self.0 ^= self.0 >> 27;
        (self.0.wrapping_mul(0x2545_f491_4f6c_dd1d) >> 33) % end
    }

    fn number(&mut self) -> i32 {
        self.below(120) as i32 - 60
    }

    fn value(&mut self) -> u8 {
        self.below(3) as u8
    }

    /// A range of up to 14 numbers; some are empty.
    fn range(&mut self) -> RangeInclusive<i32> {
        let lower = self.number();
        lower..=lower + self.below(16) as i32 - 2
    }
}

/// The entries of a model: its longest runs of equal values.
fn entries(model: &Model) -> Vec<(RangeInclusive<i32>, u8)> {
    let mut entries: Vec<(RangeInclusive<i32>, u8)> = Vec::new();
    for (&x, &value) in model {
        match entries.last_mut() {
            Some((run, last)) if *run.end() + 1 == x && *last == value => *run = *run.start()..=x,
            _ => entries.push((x..=x, value)),
        }
    }
    entries
}

fn assert_same(map: &Map, model: &Model, step: u32, what: &str) {
    let wanted = entries(model);
    let is_same = map.interval_count() == wanted.len() && map.iter().map(|(run, value)| (run, *value)).eq(wanted);
    assert!(is_same, "step {step}, {what}: {map:?} beside {model:?}");
}

fn write(model: &mut Model, range: RangeInclusive<i32>, value: u8) {
    model.extend(range.map(|x| (x, value)));
}

/// Edits the pair; returns the name of the call.
fn edit(random: &mut Random, map: &mut Map, model: &mut Model) -> &'static str {
    let (range, value) = (random.range(), random.value());
    match random.below(18) {
        0..4 => {
            map.insert(range.clone(), value);
            write(model, range, value);
            "insert"
        }
        4 => {
            assert_eq!(map.checked_insert(*range.start(), value), Some(()));
            write(model, *range.start()..=*range.start(), value);
            "insert of a number"
        }
        5 | 6 => {
            let met = range.clone().find(|x| model.contains_key(x));
            let told = map.insert_if_free(range.clone(), value).map_err(|(run, value)| (run, *value));
            let wanted = met.map(|x| entries(model).into_iter().find(|(run, _)| run.contains(&x)).unwrap());
            assert_eq!(told.err(), wanted);
            if met.is_none() {
                write(model, range, value);
            }
            "insert_if_free"
        }
        7 | 8 => {
            let had_some = range.clone().any(|x| model.contains_key(&x));
            assert_eq!(map.remove(range.clone()), had_some);
            model.retain(|x, _| !range.contains(x));
            "remove"
        }
        9 => {
            map.update(range.clone(), |value| value / 2);
            model.iter_mut().filter(|(x, _)| range.contains(x)).for_each(|(_, value)| *value /= 2);
            "update"
        }
        10 => {
            let list = [(range, value), (random.range(), random.value()), (random.range(), random.value())];
            map.extend(list.clone());
            list.into_iter().for_each(|(range, value)| write(model, range, value));
            "extend"
        }
        11 => {
            if random.below(40) == 0 {
                map.clear();
                model.clear();
            }
            "clear"
        }
        _ => edit_of_more(random, map, model, range, value),
    }
}

/// Edits of all entries, of sets, and by a function.
fn edit_of_more(
    random: &mut Random,
    map: &mut Map,
    model: &mut Model,
    range: RangeInclusive<i32>,
    value: u8,
) -> &'static str {
    let some = IntervalSet::from([range.clone(), random.range(), random.range()]);
    match random.below(7) {
        0 => {
            let all = entries(model);
            map.retain(|run, value| (*run.end() + i32::from(*value)) % 7 != 0);
            for (run, value) in all {
                if (*run.end() + i32::from(value)) % 7 == 0 {
                    model.retain(|x, _| !run.contains(x));
                }
            }
            "retain"
        }
        1 => {
            let changed = |old: Option<u8>| old.map_or(Some(value), |old| (old != 2).then_some((old + value) % 3));
            let mut asked = Vec::new();
            map.combine(range.clone(), |old| {
                asked.push(old.copied());
                changed(old.copied())
            });
            // one question for each run of numbers with equal values, or with none
            let mut wanted: Vec<Option<u8>> = range.clone().map(|x| model.get(&x).copied()).collect();
            wanted.dedup();
            assert_eq!(asked, wanted);
            for x in range {
                match changed(model.get(&x).copied()) {
                    Some(value) => model.insert(x, value),
                    None => model.remove(&x),
                };
            }
            "combine"
        }
        2 => {
            map.insert_set(&PagedSet::from(&some), value);
            some.iter().for_each(|x| _ = model.insert(x, value));
            "insert_set"
        }
        3 => {
            assert_eq!(map.remove_set(&some), some.iter().any(|x| model.contains_key(&x)));
            model.retain(|x, _| !some.contains(*x));
            "remove_set"
        }
        4 => {
            let list = [(); 4].map(|()| (random.range(), random.value()));
            let (mut other, mut added) = (Map::from(list.clone()), Model::new());
            list.into_iter().for_each(|(range, value)| write(&mut added, range, value));
            map.append(&mut other);
            model.append(&mut added);
            assert!(other.is_empty());
            "append"
        }
        5 => {
            let at = *range.start();
            let (upper, model_upper) = (map.split_off(at), model.split_off(&at));
            assert_same(&upper, &model_upper, 0, "split_off");
            if random.below(4) != 0 {
                map.append(&mut upper.clone());
                model.extend(model_upper);
            }
            "split_off"
        }
        _ => {
            let list: Vec<_> = (0..60).map(|_| (random.range(), random.value())).collect();
            map.extend(list.clone());
            list.into_iter().for_each(|(range, value)| write(model, range, value));
            "extend by many"
        }
    }
}

/// A map made of one map or two, or of a list, and its model.
fn made(random: &mut Random, [p, q]: [&Map; 2], [u, v]: [&Model; 2]) -> (&'static str, Map, Model) {
    let range = random.range();
    let kept = |model: &Model, keep: &dyn Fn(i32) -> bool| -> Model {
        model.iter().filter(|(x, _)| keep(**x)).map(|(x, value)| (*x, *value)).collect()
    };
    let some = IntervalSet::from([range.clone(), random.range(), random.range()]);
    match random.below(8) {
        0 => ("cut_to", p.cut_to(range.clone()), kept(u, &|x| range.contains(&x))),
        1 => ("restrict_to", p.restrict_to(&some), kept(u, &|x| some.contains(x))),
        2 => ("without", p.without(&PagedSet::from(&some)), kept(u, &|x| !some.contains(x))),
        5 => ("and", p & &some, kept(u, &|x| some.contains(x))),
        6 => {
            let third = p.cut_to(range.clone());
            let mut model = kept(u, &|x| range.contains(&x));
            for (x, value) in u.iter().chain(v) {
                model.entry(*x).and_modify(|sum| *sum = (*sum + value) % 3).or_insert(*value);
            }
            let sums = Map::merge_of([&third, p, q], |x, y| (x + y) % 3);
            assert_eq!(Map::merge_of([p, q, &third, q], |_, later| *later), p | q);
            ("merge_of", sums, model)
        }
        3 => ("without the keys", p.without(&q.keys()), kept(u, &|x| !v.contains_key(&x))),
        4 => {
            let both = |x: &u8, y: &u8| (2 * x + y) % 3;
            let mut model = v.clone();
            u.iter().for_each(|(x, a)| _ = model.insert(*x, v.get(x).map_or(*a, |b| both(a, b))));
            ("merge", p.merge(q, both), model)
        }
        _ => {
            let list = [(); 5].map(|()| (random.range(), random.value()));
            let mut model = Model::new();
            list.iter().for_each(|(range, value)| write(&mut model, range.clone(), *value));
            ("collect", list.into_iter().collect(), model)
        }
    }
}

/// Asks about single numbers.
fn ask_at(map: &Map, model: &Model, x: i32) {
    let all = entries(model);
    let shown = |entry: Option<(RangeInclusive<i32>, &u8)>| entry.map(|(run, value)| (run, *value));
    let at = all.iter().find(|(run, _)| run.contains(&x)).cloned();
    assert_eq!((map.get(x), map.contains(x)), (model.get(&x), model.contains_key(&x)));
    assert_eq!(shown(map.get_run(x)), at);
    assert_eq!(shown(map.next_from(x)), all.iter().find(|(run, _)| *run.end() >= x).cloned());
    assert_eq!(shown(map.previous_to(x)), all.iter().rfind(|(run, _)| *run.start() <= x).cloned());
    assert_eq!((shown(map.first()), shown(map.last())), (all.first().cloned(), all.last().cloned()));
    assert_eq!((map.size(), map.is_empty()), (model.len() as u32, model.is_empty()));
    assert_eq!(map.clone().into_iter().collect::<Vec<_>>(), all);
    assert_eq!(map.values().copied().collect::<Vec<_>>(), all.iter().map(|(_, value)| *value).collect::<Vec<_>>());
}

/// Asks about the numbers of a range.
fn ask_within(map: &Map, model: &Model, range: RangeInclusive<i32>, count: u32) {
    let gaps: Vec<i32> = range.clone().filter(|x| !model.contains_key(x)).collect();
    assert!(map.gaps_within(range.clone()).iter().eq(gaps.iter().copied()));
    let fits = |x: i32| (0..count as i32).all(|i| range.contains(&(x + i)) && !model.contains_key(&(x + i)));
    let fit = gaps.into_iter().find(|x| fits(*x)).map(|x| x..=x + count as i32 - 1);
    assert_eq!(map.first_fit(range.clone(), count), fit);
    let met = entries(model).into_iter().filter(|(run, _)| range.clone().any(|x| run.contains(&x)));
    assert!(map.overlapping(range.clone()).map(|(run, value)| (run, *value)).eq(met));
    let with: Vec<i32> = model.iter().filter(|(_, value)| **value == 1).map(|(x, _)| *x).collect();
    assert!(map.numbers_with(|value| *value == 1).iter().eq(with));
    assert!(map.keys().iter().eq(model.keys().copied()));
    let within: Vec<_> = range.clone().filter_map(|x| Some((x, *model.get(&x)?))).collect();
    let parts = map.overlapping_within(range.clone());
    assert_eq!(parts.len(), map.overlapping(range.clone()).len());
    assert!(parts.flat_map(|(run, value)| run.map(move |x| (x, *value))).eq(within.iter().copied()));
    assert_eq!(map.size_within(range.clone()) as usize, within.len());
    assert_eq!(map.overlaps(range.clone()), !within.is_empty());
    assert_eq!(map.includes(range.clone()), range.count() == within.len());
}

fn hash_of(map: &Map) -> u64 {
    let mut hasher = DefaultHasher::new();
    map.hash(&mut hasher);
    hasher.finish()
}

#[test]
fn random_calls_beside_a_btree_map() {
    let mut random = Random(88_172_645_463_325_252);
    let mut pairs = [(Map::new(), Model::new()), (Map::new(), Model::new())];
    let mut calls = BTreeMap::<&str, u32>::new();
    for step in 0..STEPS {
        let [(p, u), (q, v)] = &mut pairs;
        let what = match step % 4 {
            0 | 1 => edit(&mut random, p, u),
            2 => {
                ask_at(p, u, random.number());
                let (range, count) = (random.range(), random.below(5) as u32 + 1);
                ask_within(p, u, range, count);
                assert_eq!((*p == *q, p.clone() == *p), (u == v, true));
                assert_eq!(((*p).cmp(q), (*q).cmp(p)), ((*u).cmp(v), (*v).cmp(u)));
                assert!(u.keys().all(|x| p[*x] == u[x]));
                assert_eq!(hash_of(&entries(u).into_iter().collect()), hash_of(p));
                "questions"
            }
            _ => {
                let (what, map, model) = made(&mut random, [p, q], [u, v]);
                assert_same(&map, &model, step, what);
                if random.below(4) == 0 {
                    (*p, *u) = (map, model);
                }
                what
            }
        };
        assert_same(p, u, step, what);
        *calls.entry(what).or_default() += 1;
        if random.below(8) == 0 {
            pairs.swap(0, 1);
        }
    }
    assert!(calls.len() == 23 && calls.values().all(|count| *count > 300), "{calls:?}");
}

/// Lists of many ranges of all lengths, in random order and in order, written at once: as if one after another.
#[test]
fn lists_of_ranges_beside_an_array() {
    let mut random = Random(77_777);
    for round in 0..400 {
        let (count, width) = (random.below(300) as usize, random.below([4, 40, 200][round % 3]) + 2);
        let mut list: Vec<(RangeInclusive<i32>, u8)> = Vec::new();
        for _ in 0..count {
            let lower = random.below(1_000) as i32;
            list.push((lower..=lower + random.below(width) as i32 - 1, random.below(5) as u8));
        }
        match round % 4 {
            0 => list.sort_by_key(|(range, _)| *range.start()),
            1 => list.sort_by_key(|(range, _)| std::cmp::Reverse(*range.end())),
            _ => {}
        }
        let (first, second) = list.split_at(random.below(count as u64 + 1) as usize);
        let mut map: Map = first.iter().cloned().collect();
        let mut model = Model::new();
        first.iter().for_each(|(range, value)| write(&mut model, range.clone(), *value));
        assert_same(&map, &model, round as u32, "collect");
        map.extend(second.to_vec());
        second.iter().for_each(|(range, value)| write(&mut model, range.clone(), *value));
        assert_same(&map, &model, round as u32, "extend");
    }
}

/// A million edits of a map over the 256 numbers of a byte, beside an array. A debug build makes 200,000 of them.
#[test]
fn a_million_edits_beside_an_array() {
    let edits = if cfg!(debug_assertions) { 200_000 } else { 1_000_000 };
    let mut random = Random(1_234_567);
    let mut map: IntervalMap<Full<u8>, u8> = IntervalMap::new();
    let mut model = [None; 256];
    for step in 0..edits {
        let (lower, width, value) =
            (random.below(256) as u8, random.below(random_width(step)) as u8, random.below(4) as u8);
        let upper = lower.saturating_add(width);
        let range = Full(lower)..=Full(upper);
        let written = match random.below(8) {
            0..5 => {
                map.insert(range, value);
                Some(Some(value))
            }
            5 | 6 => {
                map.remove(range);
                Some(None)
            }
            _ => map.insert_if_free(range, value).is_ok().then_some(Some(value)),
        };
        if let Some(written) = written {
            model[usize::from(lower)..=usize::from(upper)].fill(written);
        }
        for x in [lower, upper, lower.wrapping_sub(1), upper.wrapping_add(1), random.below(256) as u8] {
            assert_eq!(map.get(Full(x)), model[usize::from(x)].as_ref(), "step {step}, at {x}");
        }
        if step % 61 == 0 {
            assert_as_array(&map, &model, step);
        }
    }
}

/// At first edits are short, so that there are many entries; then some are long.
fn random_width(step: u32) -> u64 {
    if step % 1_000 < 900 { 4 } else { 100 }
}

/// Compares all entries with an array: that they are as long as can be, too.
fn assert_as_array(map: &IntervalMap<Full<u8>, u8>, model: &[Option<u8>; 256], step: u32) {
    let mut numbers = 0;
    for (run, value) in map {
        let (lower, upper) = (usize::from(run.start().0), usize::from(run.end().0));
        assert!(model[lower..=upper].iter().all(|x| x == &Some(*value)), "step {step}: {map:?}");
        let beside = [lower.checked_sub(1), Some(upper + 1)].map(|x| x.and_then(|x| model.get(x)).copied().flatten());
        assert!(beside.iter().all(|x| x != &Some(*value)), "step {step}: {map:?}");
        numbers += upper + 1 - lower;
    }
    assert_eq!(numbers, model.iter().flatten().count(), "step {step}: {map:?}");
}
