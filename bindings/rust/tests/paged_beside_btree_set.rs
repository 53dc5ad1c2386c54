//! 50,000 random calls of the root's paged set beside a `BTreeSet`, each answer compared.
use intervallum::proved::ivl_paged as proved;
use intervallum::{IntervalSet, PagedSet};
use std::collections::{BTreeSet, HashSet};
use std::ops::RangeInclusive;

type Set = PagedSet<i16>;
type Model = BTreeSet<i16>;

const STEPS: u32 = 50_000;

/// Members lie from here to the end of the range, so that its end is among them, and there are runs for several pages.
const LEAST: i16 = 29_000;

/// A generator of random numbers: xorshift64*.
struct Random(u64);

impl Random {
    fn below(&mut self, end: u64) -> u64 {
        self.0 ^= self.0 >> 12;
        self.0 ^= self.0 << 25;
        self.0 ^= self.0 >> 27;
        (self.0.wrapping_mul(0x2545_f491_4f6c_dd1d) >> 33) % end
    }

    fn value(&mut self) -> i16 {
        LEAST + self.below(3768) as i16
    }

    fn range(&mut self) -> RangeInclusive<i16> {
        let (lower, count) = (self.value(), if self.below(40) == 0 { 400 } else { 8 });
        lower..=lower.saturating_add(self.below(count) as i16 - 2)
    }
}

/// The run of a model that holds a member.
fn run_of(model: &Model, value: i16) -> RangeInclusive<i16> {
    let lower = model.range(..=value).rev().zip((0..=value).rev()).take_while(|(x, y)| *x == y).last();
    let upper = model.range(value..).zip(value..=i16::MAX).take_while(|(x, y)| *x == y).last();
    *lower.unwrap().0..=*upper.unwrap().0
}

/// The lowest `count` consecutive members from a value on.
fn fit(model: &Model, from: i16, count: u16) -> Option<RangeInclusive<i16>> {
    let mut next = model.range(from..).next().copied();
    while let Some(value) = next {
        let end = *run_of(model, value).end();
        if end.abs_diff(value) >= count - 1 {
            return Some(value..=value + count as i16 - 1);
        }
        next = end.checked_add(1).and_then(|above| model.range(above..).next().copied());
    }
    None
}

/// Edits the pair; returns the name of the call.
fn edit(random: &mut Random, set: &mut Set, model: &mut Model) -> &'static str {
    let (value, range) = (random.value(), random.range());
    match random.below(24) {
        0 => {
            set.insert_interval(range.clone());
            model.extend(range);
            "insert_interval"
        }
        1 => {
            set.remove_interval(range.clone());
            model.retain(|x| !range.contains(x));
            "remove_interval"
        }
        2 => {
            assert_eq!((set.pop_first(), set.pop_last()), (model.pop_first(), model.pop_last()));
            "pop_first, pop_last"
        }
        3 => {
            let lowest = fit(model, i16::MIN, 3);
            assert_eq!(set.take_first_fit(3), lowest);
            lowest.into_iter().flatten().for_each(|x| assert!(model.remove(&x)));
            "take_first_fit"
        }
        4 => {
            set.extend([range.clone()]);
            model.extend(range);
            assert_eq!(set.checked_insert_interval(value), Some(model.insert(value)));
            "extend"
        }
        step if step < 15 => {
            assert_eq!(set.insert(value), model.insert(value));
            "insert"
        }
        _ => {
            assert_eq!(set.remove(value), model.remove(&value));
            "remove"
        }
    }
}

/// Compares the answers about one value.
fn ask(set: &Set, model: &Model, value: i16) {
    let is_member = model.contains(&value);
    assert_eq!(set.contains(value), is_member);
    assert_eq!(set.run_at(value), is_member.then(|| run_of(model, value)));
    assert_eq!(set.next_from(value), model.range(value..).next().copied());
    assert_eq!(set.previous_to(value), model.range(..=value).next_back().copied());
    assert_eq!(
        (set.first(), set.last(), set.is_empty()),
        (model.first().copied(), model.last().copied(), model.is_empty())
    );
    assert_eq!(set.hull(), model.first().map(|least| *least..=*model.last().unwrap()));
    assert_eq!(set.first_fit_from(value, 4), fit(model, value, 4));
}

/// Compares what goes by more than one page with the answers of a list of the same runs.
fn ask_of_parts(random: &mut Random, set: &Set, list: &IntervalSet<i16>) {
    for _ in 0..20 {
        let (a, b) = (random.value(), random.value());
        let part = a.min(b)..=a.max(b).saturating_add(random.below(3) as i16);
        let part = if random.below(4) == 0 { a..=a.saturating_add(3) } else { part };
        assert_eq!((set.includes(&part), set.overlaps(&part)), (list.includes(&part), list.overlaps(&part)));
        assert_eq!(set.size_within(&part), list.size_within(&part));
        assert!(set.runs_within(&part).eq(list.runs_within(&part)));
        assert!(set.runs_within(&part).rev().eq(list.runs_within(&part).rev()));
        assert!(set.range(&part).eq(list.range(&part)) && set.range(&part).rev().eq(list.range(&part).rev()));
        assert_eq!(set.range(&part).count(), list.range(&part).count());
        assert_eq!(set.within(&part), Set::from(list.within(&part)));
        assert_eq!(set.gaps_within(&part), Set::from(list.gaps_within(&part)));
        let count = random.below(12) as u16 + 1;
        assert_eq!(set.best_fit(count), list.best_fit(count));
        let (mut left, mut list_left) = (set.clone(), list.clone());
        assert_eq!((left.split_off(a).to_set(), left.to_set()), (list_left.split_off(a), list_left));
        let (few, many) = (list.within(&part), list.within(b..));
        assert_eq!((set | &few, set & &many), (Set::from(list | &few), Set::from(list & &many)));
        assert_eq!(
            (set ^ Set::from(&many), set.difference(&few)),
            (Set::from(list ^ &many), Set::from(list.difference(&few)))
        );
        assert!(set.is_superset(&few) && many.is_subset(set) && Set::from(&many).is_subset(list));
        assert_eq!(set.is_disjoint(&Set::from(&many)), list.is_disjoint(&many));
        assert_eq!(few.overlap(&set.gaps_within(..)), list.overlap(&!list));
    }
}

/// Compares the whole of both.
fn assert_same(set: &Set, model: &Model) {
    let list: IntervalSet<i16> = model.iter().collect();
    assert_eq!((set.len(), usize::from(set.size())), (model.len(), model.len()));
    assert_eq!((set.interval_count(), set.first_fit(4)), (list.interval_count(), list.first_fit(4)));
    assert!(set.iter().eq(model.iter().copied()) && set.into_iter().rev().eq(model.iter().rev().copied()));
    assert!(set.runs().eq(list.runs()) && set.runs().rev().eq(list.runs().rev()));
    for (index, value) in (0u16..).zip(model).step_by(7) {
        assert_eq!((set.rank(*value), set.nth(index)), (index, Some(*value)));
    }
    assert_eq!(set.nth(model.len() as u16), None);
    assert_eq!(
        (set.to_set(), set.to_string(), format!("{set:?}")),
        (list.clone(), list.to_string(), format!("{list:?}"))
    );
    let (of_list, of_members): (Set, Set) = (Set::from(&list), model.iter().collect());
    assert_eq!((set, set, set), (&of_list, &of_members, &set.clone()));
}

#[test]
fn random_calls_agree_with_a_tree() {
    let (mut random, mut set, mut model) = (Random(11), Set::empty(), Model::new());
    let mut most = 0;
    for step in 0..STEPS {
        let call = edit(&mut random, &mut set, &mut model);
        assert_eq!(set.len(), model.len(), "step {step}, {call}");
        ask(&set, &model, random.value());
        most = most.max(set.interval_count());
        if step % 2_500 == 0 {
            assert_same(&set, &model);
            ask_of_parts(&mut random, &set, &set.to_set());
        }
    }
    assert_same(&set, &model);
    assert!(most > 500, "enough for several pages: {most}");
    set.clear();
    assert_same(&set, &Model::new());
}

#[test]
fn sets_are_made_copied_hashed_and_compared() {
    let a = Set::from([5..=6, 1..=2]);
    for made in [
        Set::from([1, 2, 6, 5]),
        Set::from([(5, 6), (1, 2), (9, 8)]),
        a.iter().collect(),
        a.runs().collect(),
        Set::from(&IntervalSet::from(&a)),
        a.clone(),
    ] {
        assert_eq!(made, a);
    }
    assert_eq!(
        (Set::from(3..=5), Set::from(3..6), Set::from(..).len()),
        (Set::from([3, 4, 5]), Set::from([(3, 5)]), 65_535)
    );
    assert!(a != Set::default() && Set::default().is_empty());
    let known: HashSet<Set> = [a.clone(), Set::from(1..=6), Set::from([5, 6, 2, 1])].into();
    assert_eq!((known.len(), known.contains(&a)), (2, true));
    assert!(a.as_proved().contains(&5) && a.iter().sum::<i16>() == 14);
    let there = proved::PagedSet::from(a.clone());
    assert!(*a.as_proved() == there && Set::from(there) == a);
}
