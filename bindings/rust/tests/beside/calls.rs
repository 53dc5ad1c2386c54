// Random calls of a set of either kind beside a `BTreeSet`: this file stands in a module for each kind, which has the type `Set`
// and what it computes with members.
use intervallum::{IntervalSet, PagedSet};
use std::collections::BTreeSet;
use std::collections::hash_map::DefaultHasher;
use std::hash::{Hash, Hasher};
use std::ops::{Bound, RangeInclusive};

type Model = BTreeSet<i8>;

const WHOLE: RangeInclusive<i8> = -127..=127;

/// A generator of random numbers: xorshift64*.
pub struct Random(u64);

impl Random {
    pub fn below(&mut self, end: u64) -> u64 {
        self.0 ^= self.0 >> 12;
        self.0 ^= self.0 << 25;
        self.0 ^= self.0 >> 27;
        (self.0.wrapping_mul(0x2545_f491_4f6c_dd1d) >> 33) % end
    }

    /// Any value of the type; -128 is outside the range.
    fn value(&mut self) -> i8 {
        self.below(256) as u8 as i8
    }

    fn member_range(&mut self) -> RangeInclusive<i8> {
        let lower = self.value().max(-127);
        lower..=lower.saturating_add(self.below(12) as i8 - 2)
    }
}

/// The runs of a model.
pub fn runs(model: &Model) -> Vec<RangeInclusive<i8>> {
    let mut runs: Vec<RangeInclusive<i8>> = Vec::new();
    for &x in model {
        match runs.last_mut() {
            Some(run) if *run.end() + 1 == x => *run = *run.start()..=x,
            _ => runs.push(x..=x),
        }
    }
    runs
}

/// The lowest `count` consecutive members from a value on.
fn fit(model: &Model, from: i8, count: u8) -> Option<RangeInclusive<i8>> {
    let rest = runs(&model.range(from..).copied().collect());
    let run = rest.into_iter().find(|run| run.end().abs_diff(*run.start()) >= count - 1)?;
    Some(*run.start()..=(i16::from(*run.start()) + i16::from(count) - 1) as i8)
}

/// The lowest `count` numbers of the shortest run that has so many.
fn best_fit(model: &Model, count: u8) -> Option<RangeInclusive<i8>> {
    let width = |run: &RangeInclusive<i8>| run.end().abs_diff(*run.start());
    let run = runs(model).into_iter().filter(|run| width(run) >= count - 1).min_by_key(width)?;
    Some(*run.start()..=(i16::from(*run.start()) + i16::from(count) - 1) as i8)
}

fn assert_same(set: &Set, model: &Model, step: u32, what: &str) {
    let wanted = runs(model);
    let is_same = set.len() == model.len() && set.interval_count() == wanted.len() && set.runs().eq(wanted);
    assert!(is_same, "step {step}, {what}: {set:?} beside {model:?}");
}

/// Edits the first pair; returns the name of the call.
fn edit(random: &mut Random, set: &mut Set, model: &mut Model) -> &'static str {
    let (x, range) = (random.value(), random.member_range());
    match random.below(17) {
        13 => {
            set.retain(|y| y % 3 != 0);
            model.retain(|y| y % 3 != 0);
            "retain"
        }
        14 => {
            let (mut other, count) = (Set::from([range.clone(), 7..=8]), set.len());
            set.append(&mut other);
            model.extend(range.chain(7..=8));
            assert!(other.is_empty() && set.len() >= count);
            "append"
        }
        15 => {
            let few = Set::from([x.max(-127)..=x.max(-127), range.clone()]);
            *set |= &few;
            *set |= PagedSet::from([3]);
            model.extend(range.chain([3, x.max(-127)]));
            "|= of few"
        }
        0 | 1 => {
            let is_new = (x != -128).then(|| model.insert(x));
            assert_eq!(set.checked_insert(x), is_new);
            "insert"
        }
        2 => {
            let member = *WHOLE.start().max(&x);
            assert_eq!(set.insert(member), model.insert(member));
            "insert"
        }
        3 => {
            assert_eq!(set.remove(x), model.remove(&x));
            "remove"
        }
        4 | 5 => {
            assert_eq!(set.insert_interval(range.clone()), !range.clone().all(|y| model.contains(&y)));
            model.extend(range);
            "insert_interval"
        }
        6 => {
            let pair = (x.max(-127), *range.end());
            let is_new = (pair.0..=pair.1).any(|y| !model.contains(&y));
            assert_eq!(set.checked_insert_interval(pair), Some(is_new));
            model.extend(pair.0..=pair.1);
            "insert_interval of a pair"
        }
        7 => {
            let had_some = (x..*range.end()).any(|y| model.contains(&y));
            assert_eq!(set.remove_interval((Bound::Included(x), Bound::Excluded(*range.end()))), had_some);
            model.retain(|y| !(x..*range.end()).contains(y));
            "remove_interval"
        }
        8 => {
            set.extend([range.clone(), 3..=4]);
            model.extend(range.chain(3..=4));
            "extend"
        }
        9 => {
            let values = [x, random.value(), random.value()];
            let can = values.iter().all(|x| WHOLE.contains(x));
            assert_eq!(set.checked_extend(values), can.then(|| model.extend(values)));
            "checked_extend"
        }
        10 => {
            assert_eq!((set.pop_first(), set.pop_last()), (model.pop_first(), model.pop_last()));
            "pop"
        }
        11 => {
            let count = random.below(9) as u8 + 1;
            let taken = fit(model, -128, count);
            assert_eq!(set.take_first_fit(count), taken);
            model.retain(|y| taken.as_ref().is_none_or(|run| !run.contains(y)));
            "take_first_fit"
        }
        12 => {
            let (mut above, wanted) = (set.split_off(x), model.split_off(&x));
            assert_eq!(runs(&wanted), above.runs().collect::<Vec<_>>());
            // most of the members come back
            above.remove_interval(x..=x.saturating_add(3));
            *set |= above;
            model.extend(wanted.into_iter().filter(|y| *y > x.saturating_add(3)));
            "split_off"
        }
        _ => {
            if random.below(20) == 0 {
                set.clear();
                model.clear();
            }
            "clear"
        }
    }
}

/// A set made of two, by method and by operator, and its model; none where a condition is broken.
fn make(random: &mut Random, a: &Set, b: &Set, m: &Model, n: &Model) -> (&'static str, Option<(Set, Model)>) {
    let (x, range) = (random.value(), random.member_range());
    // half of the results of arithmetic lie in the range
    let reach = if random.below(2) == 0 { -11..=11 } else { WHOLE };
    let near = |model: &Model| model.range(reach.clone()).copied().collect::<Model>();
    let (p, q, u, v) = (a.within(reach.clone()), b.within(reach.clone()), near(m), near(n));
    let count = random.below(6) as usize;
    let (sets, models) = ([a, b, &p, &q, a], [m, n, &u, &v, m]);
    let many = (sets.into_iter().take(count), models.into_iter().take(count));
    match random.below(16) {
        0 => ("union", Some((a.union(&PagedSet::from_iter(b.runs())), m | n))),
        1 => ("|", Some((a | b, m | n))),
        2 => ("intersection", Some((a.intersection(b), m & n))),
        3 => ("&", Some((a.clone() & IntervalSet::from_iter(b.runs()), m & n))),
        4 => ("difference", Some((a.difference(b), m - n))),
        5 => ("symmetric_difference", Some((a.symmetric_difference(b), m ^ n))),
        6 => ("^", Some((a.clone() ^ b, m ^ n))),
        7 => ("!", Some((!a, WHOLE.filter(|x| !m.contains(x)).collect()))),
        8 => (
            "within",
            Some((a.within(x..*range.end()), m.iter().copied().filter(|y| (x..*range.end()).contains(y)).collect())),
        ),
        9 => ("gaps_within", Some((a.gaps_within(range.clone()), range.filter(|y| !m.contains(y)).collect()))),
        13 => ("union_of", Some((Set::union_of(many.0), many.1.fold(Model::new(), |all, one| &all | one)))),
        14 => (
            "intersection_of",
            Some((Set::intersection_of(many.0), many.1.fold(WHOLE.collect(), |all: Model, one| &all & one))),
        ),
        _ => computed(random, [&p, &q], [&u, &v]),
    }
}

fn hash(set: &Set) -> u64 {
    let mut hasher = DefaultHasher::new();
    set.hash(&mut hasher);
    hasher.finish()
}

/// What a set is asked, with a value and a range.
fn ask(random: &mut Random, set: &Set, model: &Model) {
    let (x, range, count) = (random.value(), random.member_range(), random.below(9) as u8);
    assert_eq!((set.contains(x), set.includes(x)), (model.contains(&x), model.contains(&x)));
    assert_eq!(set.includes(x..), (x..=127).all(|y| model.contains(&y)));
    assert_eq!(set.overlaps(..=x), model.range(..=x).next().is_some());
    assert_eq!(set.next_from(x), model.range(x..).next().copied());
    assert_eq!(set.previous_to(x), model.range(..=x).next_back().copied());
    assert_eq!(set.run_at(x), runs(model).into_iter().find(|run| run.contains(&x)));
    assert_eq!(usize::from(set.rank(x)), model.range(..x).count());
    assert_eq!(set.nth(count), model.iter().copied().nth(count.into()));
    assert_eq!(set.includes(range.clone()), range.clone().all(|y| model.contains(&y)));
    assert_eq!(set.overlaps(range.clone()), range.clone().any(|y| model.contains(&y)));
    assert_eq!(set.checked_first_fit(count), (count > 0).then(|| fit(model, -128, count)));
    assert_eq!(set.checked_first_fit_from(x, count), (count > 0).then(|| fit(model, x, count)));
    assert_eq!(set.checked_best_fit(count), (count > 0).then(|| best_fit(model, count)));
    let met = runs(model).into_iter().filter(|run| run.clone().any(|y| range.contains(&y)));
    assert!(set.runs_within(range.clone()).eq(met));
    assert_eq!(usize::from(set.size_within(range.clone())), range.clone().filter(|y| model.contains(y)).count());
    assert_eq!((set.checked_lower(), set.checked_upper()), (model.first().copied(), model.last().copied()));
    assert_eq!((set.first(), set.last()), (model.first().copied(), model.last().copied()));
    assert_eq!(set.hull(), model.first().zip(model.last()).map(|(least, greatest)| *least..=*greatest));
    assert_eq!((set.is_empty(), set.is_singleton()), (model.is_empty(), model.len() == 1));
}

/// Iteration from both ends, by value, and over a range; sets that are made again from what was read.
fn iterate(random: &mut Random, set: &Set, model: &Model) {
    let (range, from_end) = (random.member_range(), random.below(2) == 0);
    let (mut left, mut wanted) = (set.clone().into_iter(), model.clone().into_iter());
    let (mut part, end) = (set.range(range.clone()), *range.end());
    let mut part_wanted: Vec<i8> = range.filter(|x| model.contains(x)).collect();
    for _ in 0..random.below(300) {
        let one = if from_end { (left.next_back(), wanted.next_back()) } else { (left.next(), wanted.next()) };
        assert_eq!(one.0, one.1);
        if random.below(2) == 0 {
            assert_eq!(part.next(), (!part_wanted.is_empty()).then(|| part_wanted.remove(0)));
        } else {
            assert_eq!(part.next_back(), part_wanted.pop());
        }
    }
    assert!(left.eq(wanted) && part.eq(part_wanted), "up to {end}");
    assert!(set.iter().eq(model.iter().copied()) && model.iter().all(|x| set.contains(*x)));
    go_by_runs(random, set, model);
    let again: Set = set.iter().collect();
    let by_runs: Set = set.runs().rev().collect();
    let by_reference: Set = model.iter().collect();
    assert!(again == *set && by_runs == *set && by_reference == *set && hash(&again) == hash(&by_runs));
}

/// The calls of iterators that go from run to run, after some steps from both ends.
fn go_by_runs(random: &mut Random, set: &Set, model: &Model) {
    let (mut left, mut wanted) = (set.iter(), model.iter().copied());
    for _ in 0..random.below(9) {
        let n = random.below(20) as usize;
        match random.below(4) {
            0 => assert_eq!(left.nth(n), wanted.nth(n)),
            1 => assert_eq!(left.nth_back(n), wanted.nth_back(n)),
            2 => assert_eq!(left.next(), wanted.next()),
            _ => assert_eq!(left.next_back(), wanted.next_back()),
        }
    }
    assert_eq!((left.len(), left.size_hint()), (wanted.len(), wanted.size_hint()));
    assert_eq!((left.clone().count(), left.clone().last()), (wanted.len(), wanted.clone().last()));
    assert_eq!((left.clone().min(), left.clone().max()), (wanted.clone().min(), wanted.clone().max()));
    let order = |all: i64, x: i8| all.wrapping_mul(31).wrapping_add(x.into());
    assert_eq!(left.clone().fold(1, order), wanted.clone().fold(1, order));
    assert_eq!(left.clone().rfold(1, order), wanted.clone().rfold(1, order));
    assert_eq!(format!("{left:?}"), format!("Members {:?}", runs(&wanted.collect())));

    let (range, wanted) = (random.member_range(), runs(model));
    let met: Vec<_> = wanted.iter().filter(|run| (*run).clone().any(|x| range.contains(&x))).cloned().collect();
    assert_eq!((set.runs().len(), set.clone().into_runs().len()), (wanted.len(), wanted.len()));
    step(random, set.runs(), &wanted);
    step(random, set.clone().into_runs(), &wanted);
    step(random, set.runs_within(range), &met);
}

/// Steps from both ends, and then one of the calls that take all that is left.
fn step<I: DoubleEndedIterator<Item = RangeInclusive<i8>>>(
    random: &mut Random,
    mut left: I,
    wanted: &[RangeInclusive<i8>],
) {
    let mut wanted = wanted.iter().cloned();
    for _ in 0..random.below(5) {
        let n = random.below(3) as usize;
        match random.below(4) {
            0 => assert_eq!(left.nth(n), wanted.nth(n)),
            1 => assert_eq!(left.nth_back(n), wanted.nth_back(n)),
            2 => assert_eq!(left.next(), wanted.next()),
            _ => assert_eq!(left.next_back(), wanted.next_back()),
        }
    }
    let (least, most) = left.size_hint();
    assert!(least <= wanted.len() && most.is_none_or(|most| wanted.len() <= most));
    match random.below(4) {
        0 => assert_eq!(left.count(), wanted.len()),
        1 => assert_eq!(left.last(), wanted.next_back()),
        2 => assert!(left.rev().eq(wanted.rev())),
        _ => assert!(left.eq(wanted)),
    }
}

fn compare(a: &Set, b: &Set, m: &Model, n: &Model) {
    let (list, pages) = (IntervalSet::from_iter(b.runs()), PagedSet::from_iter(b.runs()));
    assert_eq!((a.overlap(&list), a.is_disjoint(&pages)), (!m.is_disjoint(n), m.is_disjoint(n)));
    assert_eq!((a.is_subset(&list), a.is_superset(&pages)), (m.is_subset(n), m.is_superset(n)));
    assert_eq!((a.is_subset(&pages), a.is_superset(&list)), (m.is_subset(n), m.is_superset(n)));
    assert_eq!((a.cmp(b), a.partial_cmp(b)), (m.cmp(n), m.partial_cmp(n)));
    assert_eq!((a.to_string().parse().as_ref(), format!("{a:>9}").trim_start()), (Ok(a), a.to_string().as_str()));
    assert_eq!(a.overlap(b), !m.is_disjoint(n));
    assert_eq!(a.is_disjoint(b), m.is_disjoint(n));
    assert_eq!(a.is_subset(b), m.is_subset(n));
    assert_eq!(a.is_superset(b), m.is_superset(n));
    assert_eq!(a.is_proper_subset(b), m.is_subset(n) && m != n);
    assert_eq!(a.is_proper_superset(b), m.is_superset(n) && m != n);
    assert_eq!(usize::from(a.intersection_size(b)), (m & n).len());
    assert_eq!(usize::from(a.union_size(b)), (m | n).len());
    assert_eq!(usize::from(a.difference_size(b)), (m - n).len());
    assert_eq!(a == b, m == n);
    assert_eq!(
        format!("{a:?}"),
        format!("{{{}}}", runs(m).iter().map(|r| format!("{r:?}")).collect::<Vec<_>>().join(", "))
    );
}

#[test]
fn random_calls_answer_as_a_btree_set() {
    let mut random = Random(0x9e37_79b9_7f4a_7c15);
    let (mut sets, mut models) = (vec![Set::empty(); 3], vec![Model::new(); 3]);
    for step in 0..STEPS {
        let (i, j) = (random.below(3) as usize, random.below(3) as usize);
        let what = match random.below(5) {
            0 | 1 => edit(&mut random, &mut sets[i], &mut models[i]),
            2 => {
                let (what, made) = make(&mut random, &sets[i], &sets[j], &models[i], &models[j]);
                if let Some((set, model)) = made {
                    (sets[i], models[i]) = (set, model);
                }
                what
            }
            3 => {
                ask(&mut random, &sets[i], &models[i]);
                compare(&sets[i], &sets[j], &models[i], &models[j]);
                "a question"
            }
            _ => {
                iterate(&mut random, &sets[i], &models[i]);
                "iteration"
            }
        };
        assert_same(&sets[i], &models[i], step, what);
    }
}
