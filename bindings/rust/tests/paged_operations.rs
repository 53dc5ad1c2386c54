//! Random operations on paged sets beside a `BTreeSet`, each answer compared.
use intervallum::proved::interval_set::{IntervalSet, ToIntervalSet};
use intervallum::proved::ivl_paged::PagedSet;
use intervallum::proved::ops::{Bounded, Complement, Difference, Intersection, Range, SymmetricDifference, Union};
use intervallum::proved::{Global, Interval};
use std::collections::BTreeSet;

type Model = BTreeSet<u16>;

// a tenth where nothing is optimized
const STEPS: u32 = if cfg!(debug_assertions) { 10_000 } else { 100_000 };

/// A generator of random numbers: xorshift64*.
struct Random(u64);

impl Random {
    fn below(&mut self, end: u64) -> u64 {
        self.0 ^= self.0 >> 12;
        self.0 ^= self.0 << 25;
        self.0 ^= self.0 >> 27;
        (self.0.wrapping_mul(0x2545_f491_4f6c_dd1d) >> 33) % end
    }
}

/// The runs of a model.
fn runs(model: &Model) -> Vec<(u16, u16)> {
    let mut runs: Vec<(u16, u16)> = Vec::new();
    for value in model {
        match runs.last_mut() {
            Some(run) if run.1 + 1 == *value => run.1 = *value,
            _ => runs.push((*value, *value)),
        }
    }
    runs
}

/// A set in both kinds and its model, from pages that edits have split, joined and shortened.
struct Sample {
    paged: PagedSet<u16>,
    list: IntervalSet<u16>,
    model: Model,
}

impl Sample {
    fn of(model: Model) -> Sample {
        let list = runs(&model).to_interval_set(Global).unwrap();
        Sample { paged: PagedSet::of_set(&list).unwrap(), list, model }
    }

    /// About `count` runs from `start` on, with gaps and lengths below a bound.
    fn random(random: &mut Random, count: u64, start: u64, most: u64) -> Sample {
        let (mut at, mut model) = (start, Model::new());
        for _ in 0..count {
            let end = at + random.below(most);
            model.extend((at..=end).filter(|x| *x < 65_535).map(|x| x as u16));
            at = end + 2 + random.below(most);
        }
        Sample::of(model)
    }

    /// Adds or removes a few numbers.
    fn edit(&mut self, random: &mut Random) {
        for _ in 0..random.below(4) {
            let lower = random.below(65_535) as u16;
            let upper = lower.saturating_add(random.below(9) as u16).min(65_534);
            let interval = Interval::new(lower, upper);
            if random.below(2) == 0 {
                self.paged.insert_interval(interval).unwrap();
                self.list.insert_interval(interval).unwrap();
                self.model.extend(lower..=upper);
            } else {
                self.paged.remove_interval(interval).unwrap();
                self.list.remove_interval(interval).unwrap();
                self.model.retain(|x| !(lower..=upper).contains(x));
            }
        }
    }
}

fn same(paged: &PagedSet<u16>, model: &Model) {
    assert!(paged.iter().map(|run| (run.lower(), run.upper())).eq(runs(model)));
    assert_eq!(paged.interval_count(), runs(model).len());
    // the heads of the pages serve the searches
    for value in model.iter().step_by(model.len() / 7 + 1) {
        assert!(paged.contains(value) && paged.next_from(*value) == Some(*value));
    }
}

/// One operation on two sets, once with a paged set and once with a list.
fn operate(random: &mut Random, a: &Sample, b: &Sample) {
    let (paged, with_list, model) = match random.below(4) {
        0 => (a.paged.union(&b.paged), a.paged.union(&b.list), &a.model | &b.model),
        1 => (a.paged.intersection(&b.paged), a.paged.intersection(&b.list), &a.model & &b.model),
        2 => (a.paged.difference(&b.paged), a.paged.difference(&b.list), &a.model - &b.model),
        _ => (a.paged.symmetric_difference(&b.paged), a.paged.symmetric_difference(&b.list), &a.model ^ &b.model),
    };
    same(&paged.unwrap(), &model);
    same(&with_list.unwrap(), &model);
}

/// A new sample: from none to some thousand runs, mostly few; some begin and end with the range.
fn sample(random: &mut Random) -> Sample {
    let count = match random.below(100) {
        0 => 2_000 + random.below(2_000),
        1..8 => random.below(600),
        8..35 => random.below(200),
        _ => random.below(20),
    };
    let start = if random.below(2) == 0 { 0 } else { random.below(65_000) };
    let most = 1 + random.below(8);
    let mut sample = match random.below(3) {
        0 => Sample::random(random, count, 65_534_u64.saturating_sub(count * most), most),
        _ => Sample::random(random, count, start, most),
    };
    sample.edit(random);
    sample
}

#[test]
fn operations_as_a_btree_set_has_them() {
    let mut random = Random(4);
    let mut samples: Vec<Sample> = (0..40).map(|_| sample(&mut random)).collect();
    for step in 0..STEPS {
        let (i, j) = (random.below(40) as usize, random.below(40) as usize);
        operate(&mut random, &samples[i], &samples[j]);
        if step % 8 == 0 {
            samples[i] = sample(&mut random);
        }
    }
}

#[test]
fn complements_as_a_list_has_them() {
    let mut random = Random(5);
    for _ in 0..2_000 {
        let sample = sample(&mut random);
        let complement = sample.paged.complement().unwrap();
        assert!(complement.to_set().unwrap() == sample.list.complement().unwrap());
        // the borders of the two sets lie one beside the other
        assert!(complement.union(&sample.paged).unwrap().to_set().unwrap() == IntervalSet::whole(Global).unwrap());
        assert!(complement.intersection(&sample.paged).unwrap().is_empty());
    }
}

#[test]
fn an_answer_takes_edits() {
    let mut random = Random(6);
    for _ in 0..300 {
        let (a, b) = (sample(&mut random), sample(&mut random));
        let mut joined = Sample {
            paged: a.paged.union(&b.paged).unwrap(),
            list: a.list.union(&b.list).unwrap(),
            model: &a.model | &b.model,
        };
        for _ in 0..20 {
            joined.edit(&mut random);
        }
        same(&joined.paged, &joined.model);
        assert!(joined.paged.to_set().unwrap() == joined.list);
    }
}

/// About `count` short runs in a sample, some of which touch its runs and some split them.
fn few_in(random: &mut Random, sample: &Sample, count: u64) -> Sample {
    let ends: Vec<u16> = runs(&sample.model).iter().flat_map(|run| [run.0, run.1]).collect();
    let mut model = Model::new();
    for _ in 0..count {
        let near =
            ends.get(random.below(1 + ends.len() as u64) as usize).map_or(random.below(65_000), |end| u64::from(*end));
        let lower = (near + random.below(5)).saturating_sub(2).min(65_534) as u16;
        let most = if random.below(8) == 0 { 3_000 } else { 4 };
        model.extend(lower..=lower.saturating_add(random.below(most) as u16).min(65_534));
    }
    Sample::of(model)
}

#[test]
fn changes_in_place_as_a_btree_set_has_them() {
    let mut random = Random(7);
    for step in 0..STEPS / 20 {
        let mut a = if step % 2 == 0 { sample(&mut random) } else { Sample::random(&mut random, 3_000, 0, 6) };
        a.edit(&mut random);
        let count = [0, 1, 3, 40, 300][random.below(5) as usize];
        let b = if step % 3 == 0 { sample(&mut random) } else { few_in(&mut random, &a, count) };
        let (mut paged, mut with_list) = (a.paged.try_clone().unwrap(), a.paged.try_clone().unwrap());
        let (changed, model) = match random.below(3) {
            0 => (paged.union_with(&b.paged).and(with_list.union_with_list(&b.list)), &a.model | &b.model),
            1 => (paged.intersect_with(&b.paged).and(with_list.intersect_with_list(&b.list)), &a.model & &b.model),
            _ => (paged.difference_with(&b.paged).and(with_list.difference_with_list(&b.list)), &a.model - &b.model),
        };
        changed.unwrap();
        same(&paged, &model);
        same(&with_list, &model);
    }
}
