//! Times the calls of the root on sets of `i64`, and two on maps from `i64`.
//!
//! `cargo run --release --example bench` prints what each call answers at two sizes of its inputs: the runs and the size of a
//! set, or a number. With the arguments `time SECONDS GREATEST_N [WORD]` it prints lines `name n ns_per_operation runs size`, each
//! the least of three repetitions of at least so many seconds; WORD picks measures by name. The inputs are those of `ivl_bench`, so that the lines can be
//! compared with its, and with those of other programs that make the same. The names that end in `_btree` are the same calls of a
//! `BTreeMap` from the start of each run to its end, and of an entry also to its value.
use intervallum::{IntervalMap, IntervalSet};
use std::collections::BTreeMap;
use std::hint::black_box;
use std::time::{Duration, Instant};

type Set = IntervalSet<i64>;
type Map = IntervalMap<i64, u32>;

const SIZES: [usize; 7] = [10, 100, 300, 1_000, 10_000, 100_000, 1_000_000];

/// A linear congruential generator.
struct Generator(u64);

impl Generator {
    fn next(&mut self) -> u32 {
        self.0 = self.0.wrapping_mul(6_364_136_223_846_793_005).wrapping_add(1_442_695_040_888_963_407);
        (self.0 >> 33) as u32
    }
}

/// Runs with small gaps.
fn dense(n: usize, seed: u64) -> Vec<(i64, i64)> {
    let (mut random, mut position) = (Generator(seed), -4 * n as i64);
    let mut run = |_| {
        let lower = position + i64::from(2 + random.next() % 9);
        position = lower + i64::from(random.next() % 8);
        (lower, position)
    };
    (0..n).map(&mut run).collect()
}

/// Runs of one or two members, which start at each multiple of `8 * step`.
fn apart(n: usize, seed: u64, step: usize) -> Set {
    let mut random = Generator(seed);
    let starts = (0..n).map(|i| (i * step * 8) as i64);
    starts.map(|lower| (lower, lower + i64::from(random.next() % 2))).collect()
}

fn shuffled(mut pairs: Vec<(i64, i64)>, seed: u64) -> Vec<(i64, i64)> {
    let mut random = Generator(seed);
    for i in (1..pairs.len()).rev() {
        pairs.swap(i, random.next() as usize % (i + 1));
    }
    pairs
}

/// Numbers from five below the least member to five above the greatest.
fn probes(count: usize, seed: u64, set: &Set) -> Vec<i64> {
    let (lower, mut random) = (set.lower() - 5, Generator(seed));
    let width = (set.upper() + 5 - lower + 1) as u32;
    (0..count).map(|_| lower + i64::from(random.next() % width)).collect()
}

/// The starts of runs, and their ends.
#[derive(Clone)]
struct Tree(BTreeMap<i64, i64>);

impl Tree {
    fn insert(&mut self, value: i64) {
        let below = self.0.range(..=value).next_back().map(|(&start, &end)| (start, end));
        let (start, joins) = match below {
            Some((_, end)) if end >= value => return,
            Some((start, end)) => (if end + 1 == value { start } else { value }, self.0.remove(&(value + 1))),
            None => (value, self.0.remove(&(value + 1))),
        };
        self.0.insert(start, joins.unwrap_or(value));
    }

    fn remove(&mut self, value: i64) {
        match self.0.range_mut(..=value).next_back() {
            Some((&start, end)) if *end >= value => {
                let old = std::mem::replace(end, value - 1);
                if start == value {
                    self.0.remove(&start);
                }
                if old > value {
                    self.0.insert(value + 1, old);
                }
            }
            _ => {}
        }
    }

    fn answer(&self) -> (u64, u64) {
        (self.0.len() as u64, self.0.iter().map(|(start, end)| (end - start + 1) as u64).sum())
    }
}

/// The starts of entries, their ends and values.
#[derive(Clone)]
struct TreeOfEntries(BTreeMap<i64, (i64, u32)>);

impl TreeOfEntries {
    fn get(&self, number: i64) -> Option<u32> {
        let (_, &(end, value)) = self.0.range(..=number).next_back()?;
        (end >= number).then_some(value)
    }

    fn insert(&mut self, lower: i64, upper: i64, value: u32) {
        let (mut first, mut last) = (lower, upper);
        if let Some((&start, entry)) = self.0.range_mut(..lower).next_back() {
            let (end, old) = *entry;
            if end >= lower - 1 && old == value {
                (first, last) = (start, upper.max(end));
                self.0.remove(&start);
            } else if end >= lower {
                entry.0 = lower - 1;
                if end > upper {
                    self.0.insert(upper + 1, (end, old));
                }
            }
        }
        while let Some((&start, &(end, old))) = self.0.range(lower..=upper + 1).next() {
            if start > upper && old != value {
                break;
            }
            self.0.remove(&start);
            if old == value {
                last = last.max(end);
            } else if end > upper {
                self.0.insert(upper + 1, (end, old));
            }
        }
        self.0.insert(first, (last, value));
    }

    fn answer(&self) -> (u64, u64) {
        (self.0.len() as u64, self.0.iter().map(|(start, (end, _))| (end - start + 1) as u64).sum())
    }
}

/// A map of `n` entries, the same as a tree, and what is written to them.
struct Entries {
    map: Map,
    tree: TreeOfEntries,
    writes: Vec<(i64, i64, u32)>,
}

impl Entries {
    fn new(n: usize, starts: &[i64]) -> Self {
        let mut random = Generator(7);
        let entries: Vec<_> = dense(n, 1).into_iter().map(|run| (run, random.next() % 4)).collect();
        let write = |&lower| (lower, lower + i64::from(random.next() % 8), random.next() % 4);
        Self {
            map: entries.iter().copied().collect(),
            tree: TreeOfEntries(entries.iter().map(|&((lower, upper), value)| (lower, (upper, value))).collect()),
            writes: starts.iter().map(write).collect(),
        }
    }
}

/// The operands for sets of `n` runs.
struct Inputs {
    n: usize,
    a: Set,
    b: Set,
    both: Set,
    copy: Set,
    pairs: Vec<(i64, i64)>,
    probes: Vec<i64>,
    edits: Vec<i64>,
    tree: Tree,
    entries: Entries,
    few: (Set, Set),
    sparse: (Set, Set),
    fresh: Vec<(Set, Set)>,
}

impl Inputs {
    fn new(n: usize) -> Inputs {
        let (a, b): (Set, Set) = (dense(n, 1).into_iter().collect(), dense(n, 2).into_iter().collect());
        let pair = |p: u64| (dense(n, 2 * p + 1).into_iter().collect(), dense(n, 2 * p + 2).into_iter().collect());
        let edits = probes(n.min(10_000).min(1_000_000_000 / n), 6, &a);
        Inputs {
            n,
            both: &a & &b,
            copy: a.clone(),
            pairs: shuffled(dense(n, 1), 3),
            probes: probes(1000, 5, &a),
            entries: Entries::new(n, &edits),
            edits,
            tree: Tree(dense(n, 1).into_iter().collect()),
            few: (dense(10, 2).into_iter().collect(), dense(100_000, 1).into_iter().collect()),
            sparse: if n <= 300 { (apart(n, 1, n), apart(n, 2, 1)) } else { Default::default() },
            fresh: (0..(400_000 / n).clamp(1, 256) as u64).map(pair).collect(),
            a,
            b,
        }
    }
}

/// A call: its name, how many operations it stands for, and what it answers.
type Measure<'a> = (&'static str, u64, Box<dyn Fn() -> (u64, u64) + 'a>);

fn of_set(set: Set) -> (u64, u64) {
    (set.interval_count() as u64, set.size())
}

fn edited<'a>(inputs: &'a Inputs, edit: fn(&mut Set, i64)) -> Box<dyn Fn() -> (u64, u64) + 'a> {
    Box::new(move || {
        let mut copy = inputs.a.clone();
        inputs.edits.iter().for_each(|&value| edit(&mut copy, value));
        of_set(copy)
    })
}

fn edited_tree<'a>(inputs: &'a Inputs, edit: fn(&mut Tree, i64)) -> Box<dyn Fn() -> (u64, u64) + 'a> {
    Box::new(move || {
        let mut copy = inputs.tree.clone();
        inputs.edits.iter().for_each(|&value| edit(&mut copy, value));
        copy.answer()
    })
}

fn fresh<'a>(inputs: &'a Inputs, call: fn(&Set, &Set) -> Set) -> Box<dyn Fn() -> (u64, u64) + 'a> {
    Box::new(move || {
        let answers = inputs.fresh.iter().map(|(a, b)| of_set(call(black_box(a), black_box(b))));
        answers.fold((0, 0), |sum, answer| (sum.0 + answer.0, sum.1 + answer.1))
    })
}

fn count(probes: &[i64], holds: impl Fn(i64) -> bool) -> (u64, u64) {
    (probes.iter().map(|&probe| u64::from(holds(probe))).sum(), 0)
}

fn merges<'a>(inputs: &'a Inputs) -> Vec<Measure<'a>> {
    let (a, b, pairs) = (&inputs.a, &inputs.b, inputs.fresh.len() as u64);
    vec![
        ("union", 1, Box::new(move || of_set(black_box(a).union(b)))),
        ("intersection", 1, Box::new(move || of_set(black_box(a).intersection(b)))),
        ("difference", 1, Box::new(move || of_set(black_box(a).difference(b)))),
        ("symmetric", 1, Box::new(move || of_set(black_box(a).symmetric_difference(b)))),
        ("complement", 1, Box::new(move || of_set(black_box(a).complement()))),
        ("union_fresh", pairs, fresh(inputs, IntervalSet::union)),
        ("inter_fresh", pairs, fresh(inputs, IntervalSet::intersection)),
        ("diff_fresh", pairs, fresh(inputs, IntervalSet::difference)),
        ("sym_fresh", pairs, fresh(inputs, IntervalSet::symmetric_difference)),
    ]
}

fn makings<'a>(inputs: &'a Inputs) -> Vec<Measure<'a>> {
    let a = &inputs.a;
    let middle = (a.lower() + a.upper()) / 2;
    vec![
        (
            "build_extend",
            1,
            Box::new(move || {
                let mut set = Set::empty();
                set.extend(black_box(&inputs.pairs).iter().map(|run| run.0..=run.1));
                of_set(set)
            }),
        ),
        ("build_pairs", 1, Box::new(move || of_set(black_box(&inputs.pairs).iter().copied().collect()))),
        (
            "extend_one",
            1,
            Box::new(move || {
                let mut copy = black_box(a).clone();
                copy.extend([0..=1]);
                of_set(copy)
            }),
        ),
        // (else a compiler may leave out a copy of which only the number of runs is read)
        ("clone", 1, Box::new(move || of_set(black_box(black_box(a).clone())))),
        ("shrink_left", 1, Box::new(move || of_set(black_box(a).within(black_box(middle)..)))),
        ("plus_value", 1, Box::new(move || of_set(black_box(a) + black_box(7)))),
        ("times_value", 1, Box::new(move || of_set(black_box(a) * black_box(3)))),
    ]
}

fn questions<'a>(inputs: &'a Inputs) -> Vec<Measure<'a>> {
    let (a, b) = (&inputs.a, &inputs.b);
    let (probes, edits) = (inputs.probes.len() as u64, inputs.edits.len() as u64);
    vec![
        ("contains", probes, Box::new(move || count(&inputs.probes, |probe| a.contains(probe)))),
        ("next_from", probes, Box::new(move || count(&inputs.probes, |probe| a.next_from(probe).is_some()))),
        ("equal_yes", 1, Box::new(move || (u64::from(black_box(a) == &inputs.copy), 0))),
        ("equal_no", 1, Box::new(move || (u64::from(black_box(a) == b), 0))),
        ("subset", 1, Box::new(move || (u64::from(black_box(&inputs.both).is_subset(a)), 0))),
        ("first_fit", 1, Box::new(move || (u64::from(black_box(a).first_fit(1000).is_some()), 0))),
        (
            "insert_random",
            edits,
            edited(inputs, |set, value| {
                set.insert(value);
            }),
        ),
        ("insert_btree", edits, edited_tree(inputs, Tree::insert)),
        (
            "remove_random",
            edits,
            edited(inputs, |set, value| {
                set.remove(value);
            }),
        ),
        ("remove_btree", edits, edited_tree(inputs, Tree::remove)),
    ]
}

/// Calls of a map, and the same of a tree.
fn of_maps<'a>(inputs: &'a Inputs) -> Vec<Measure<'a>> {
    let Entries { map, tree, writes } = &inputs.entries;
    let (gets, inserts) = (inputs.probes.len() as u64, writes.len() as u64);
    vec![
        ("map_get", gets, Box::new(move || count(&inputs.probes, |probe| map.get(probe).is_some_and(|x| *x < 3)))),
        (
            "map_get_btree",
            gets,
            Box::new(move || count(&inputs.probes, |probe| tree.get(probe).is_some_and(|x| x < 3))),
        ),
        (
            "map_insert",
            inserts,
            Box::new(move || {
                let mut copy = black_box(map).clone();
                writes.iter().for_each(|&(lower, upper, value)| copy.insert(lower..=upper, value));
                (copy.interval_count() as u64, copy.size())
            }),
        ),
        (
            "map_insert_btree",
            inserts,
            Box::new(move || {
                let mut copy = black_box(tree).clone();
                writes.iter().for_each(|&(lower, upper, value)| copy.insert(lower, upper, value));
                copy.answer()
            }),
        ),
    ]
}

/// The calls that take long, or that do not depend on `n`.
fn long<'a>(inputs: &'a Inputs) -> Vec<Measure<'a>> {
    let (a, b, sparse, few) = (&inputs.a, &inputs.b, &inputs.sparse, &inputs.few);
    let all: Vec<(usize, usize, Measure)> = vec![
        (0, 1000, ("plus_dense", 1, Box::new(move || of_set(black_box(a) + b)))),
        (0, 1000, ("minus_dense", 1, Box::new(move || of_set(black_box(a) - b)))),
        (0, 1000, ("times_dense", 1, Box::new(move || of_set(black_box(a) * b)))),
        (0, 300, ("plus_sparse", 1, Box::new(move || of_set(black_box(&sparse.0) + &sparse.1)))),
        (0, 100, ("times_sparse", 1, Box::new(move || of_set(black_box(&sparse.0) * &sparse.1)))),
        (0, 10, ("union_few", 1, Box::new(move || of_set(black_box(&few.0).union(&few.1))))),
        (0, 10, ("intersection_few", 1, Box::new(move || of_set(black_box(&few.0).intersection(&few.1))))),
        (0, 10, ("difference_few", 1, Box::new(move || of_set(black_box(&few.0).difference(&few.1))))),
    ];
    all.into_iter().filter(|(_, greatest, _)| inputs.n <= *greatest).map(|(_, _, measure)| measure).collect()
}

fn measures(inputs: &Inputs) -> Vec<Measure<'_>> {
    match inputs.n {
        300 => long(inputs).into_iter().filter(|measure| measure.0 == "plus_sparse").collect(),
        100_000.. => {
            [makings(inputs), merges(inputs), questions(inputs), of_maps(inputs)].into_iter().flatten().collect()
        }
        _ => {
            let all = [makings(inputs), merges(inputs), questions(inputs), of_maps(inputs), long(inputs)];
            all.into_iter().flatten().collect()
        }
    }
}

/// How long so many calls take.
fn duration(measure: &Measure<'_>, count: u64) -> Duration {
    let begun = Instant::now();
    for _ in 0..count {
        black_box(measure.2());
    }
    begun.elapsed()
}

/// The least nanoseconds that an operation takes, of three repetitions.
fn nanoseconds(measure: &Measure<'_>, least: Duration) -> f64 {
    let (mut count, mut time) = (1, duration(measure, 1));
    while time < least {
        count *= 2;
        time = duration(measure, count);
    }
    for _ in 0..2 {
        time = time.min(duration(measure, count));
    }
    time.as_nanos() as f64 / (count * measure.1) as f64
}

fn main() {
    let arguments: Vec<String> = std::env::args().skip(1).collect();
    let (limits, word) = match arguments.iter().map(String::as_str).collect::<Vec<_>>()[..] {
        [] => (None, ""),
        ["time", seconds, greatest, ref word @ ..] => {
            let limits = (seconds.parse().expect("the seconds"), greatest.parse().expect("the greatest n"));
            (Some(limits), *word.first().unwrap_or(&""))
        }
        _ => panic!("the arguments are: time SECONDS GREATEST_N [WORD]"),
    };
    for n in SIZES.into_iter().filter(|n| *n <= limits.map_or(100, |(_, greatest)| greatest)) {
        let inputs = Inputs::new(n);
        for measure in measures(&inputs).iter().filter(|measure| measure.0.contains(word)) {
            let (runs, size) = measure.2();
            let answer = if size == 0 { runs.to_string() } else { format!("{runs} {size}") };
            match limits {
                None => println!("{} {n} {answer}", measure.0),
                Some((seconds, _)) => {
                    let time = nanoseconds(measure, Duration::from_secs_f64(seconds));
                    println!("{} {n} {time:.2} {answer}", measure.0);
                }
            }
        }
    }
}
