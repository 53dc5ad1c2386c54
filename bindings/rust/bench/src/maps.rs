//! Calls of the root's map at up to a million entries, beside a `BTreeMap` of runs that are split and joined by hand.

use crate::fault::Result;
use intervallum::IntervalMap;
use std::collections::BTreeMap;
use std::ops::RangeInclusive;
use std::time::{Duration, Instant};

const SIZES: [u32; 3] = [1_000, 100_000, 1_000_000];

/// So many values are in turn, so that equal ones meet.
const VALUES: u64 = 5;

/// A range with its value.
type Write = (RangeInclusive<i64>, u64);

/// A map that is edited run by run.
trait Edited: Clone {
    fn collected(writes: &[Write]) -> Self;

    fn insert(&mut self, range: RangeInclusive<i64>, value: u64);

    /// The lowest numbers without a value, so many in a row.
    fn first_room(&self, count: u64) -> Option<i64>;

    /// Adds one to the value of a number, if it has one.
    fn raise(&mut self, number: i64);

    fn count(&self) -> usize;
}

impl Edited for IntervalMap<i64, u64> {
    fn collected(writes: &[Write]) -> Self {
        writes.iter().cloned().collect()
    }

    fn insert(&mut self, range: RangeInclusive<i64>, value: u64) {
        IntervalMap::insert(self, range, value);
    }

    fn first_room(&self, count: u64) -> Option<i64> {
        self.first_fit(0.., count).map(|run| *run.start())
    }

    fn raise(&mut self, number: i64) {
        self.update(number, |value| value + 1);
    }

    fn count(&self) -> usize {
        self.interval_count()
    }
}

/// The runs of equal values, as long as can be: the first number of each, with the last one and the value.
#[derive(Clone, Default)]
struct Runs(BTreeMap<i64, (i64, u64)>);

impl Runs {
    /// Takes the numbers of a range out.
    fn cut(&mut self, lower: i64, upper: i64) {
        let below = self.0.range(..lower).next_back().map(|(start, run)| (*start, *run));
        if let Some((start, (end, value))) = below.filter(|(_, run)| run.0 >= lower) {
            self.0.insert(start, (lower - 1, value));
            if end > upper {
                self.0.insert(upper + 1, (end, value));
            }
        }
        while let Some((&start, &(end, value))) = self.0.range(lower..=upper).next() {
            self.0.remove(&start);
            if end > upper {
                self.0.insert(upper + 1, (end, value));
            }
        }
    }
}

impl Edited for Runs {
    fn collected(writes: &[Write]) -> Self {
        let mut runs = Runs::default();
        writes.iter().for_each(|(range, value)| runs.insert(range.clone(), *value));
        runs
    }

    fn insert(&mut self, range: RangeInclusive<i64>, value: u64) {
        let (mut lower, mut upper) = range.into_inner();
        self.cut(lower, upper);
        if let Some((&start, _)) = self.0.range(..lower).next_back().filter(|(_, run)| **run == (lower - 1, value)) {
            lower = start;
        }
        if let Some((end, _)) = self.0.get(&(upper + 1)).copied().filter(|run| run.1 == value) {
            self.0.remove(&(upper + 1));
            upper = end;
        }
        self.0.insert(lower, (upper, value));
    }

    fn first_room(&self, count: u64) -> Option<i64> {
        let mut from = 0;
        for (&start, &(end, _)) in &self.0 {
            if start - from >= count as i64 {
                return Some(from);
            }
            from = end + 1;
        }
        Some(from)
    }

    fn raise(&mut self, number: i64) {
        let run = self.0.range(..=number).next_back().map(|(_, run)| *run);
        if let Some((_, value)) = run.filter(|run| run.0 >= number) {
            self.insert(number..=number, value + 1);
        }
    }

    fn count(&self) -> usize {
        self.0.len()
    }
}

/// What is timed.
#[derive(Clone, Copy)]
enum Act {
    CollectInOrder,
    Collect,
    Insert,
    Update,
    FirstFitNear,
    FirstFitFar,
}

const ACTS: [(Act, &str); 6] = [
    (Act::CollectInOrder, "collect_in_order"),
    (Act::Collect, "collect"),
    (Act::Insert, "insert"),
    (Act::Update, "update"),
    (Act::FirstFitNear, "first_fit_near"),
    (Act::FirstFitFar, "first_fit_far"),
];

/// The map of `n` entries, each of five numbers and five free ones behind, and what is done with it.
struct Inputs {
    ordered: Vec<Write>,
    random: Vec<Write>,
    edits: Vec<Write>,
}

impl Inputs {
    fn new(n: u32) -> Inputs {
        let mut state: u64 = 88_172_645_463_325_252;
        let mut below = |end: u64| {
            state = state.wrapping_mul(6_364_136_223_846_793_005).wrapping_add(1_442_695_040_888_963_407);
            (state >> 33) % end
        };
        let span = 10 * u64::from(n);
        let mut writes = |count: u64, width: u64| {
            let write = |_| {
                let lower = below(span) as i64;
                (lower..=lower + below(width) as i64, below(VALUES))
            };
            (0..count).map(write).collect::<Vec<Write>>()
        };
        let (random, edits) = (writes(n.into(), 12), writes(1_000, 3));
        let entry = |i: i64| (10 * i..=10 * i + 4, i.unsigned_abs() % VALUES);
        Inputs { ordered: (0..i64::from(n)).map(entry).collect(), random, edits }
    }

    /// How often it is done, so that the longest takes some seconds.
    fn count(&self, act: Act) -> usize {
        let n = self.ordered.len();
        match act {
            Act::CollectInOrder | Act::Collect => n,
            Act::Insert | Act::Update => self.edits.len().min(200_000_000 / n),
            Act::FirstFitNear => 1_000,
            Act::FirstFitFar => 1,
        }
    }
}

/// Does it to a map, and returns what tells that it was done: how many entries there are then, or what was found.
fn carry_out<M: Edited>(act: Act, map: &mut M, inputs: &Inputs) -> u64 {
    let (count, edits) = (inputs.count(act), inputs.edits.iter());
    match act {
        Act::CollectInOrder => *map = M::collected(&inputs.ordered),
        Act::Collect => *map = M::collected(&inputs.random),
        Act::Insert => edits.take(count).for_each(|(range, value)| map.insert(range.clone(), *value)),
        Act::Update => edits.take(count).for_each(|(range, _)| map.raise(*range.start())),
        Act::FirstFitNear => return (0..count).map(|_| map.first_room(5).map_or(0, i64::unsigned_abs)).sum(),
        Act::FirstFitFar => return map.first_room(6).map_or(0, i64::unsigned_abs),
    }
    map.count() as u64
}

/// The least nanoseconds for one of three times, and the answer.
fn least_time<M: Edited>(act: Act, inputs: &Inputs) -> (u128, u64) {
    let (start, mut least, mut answer) = (M::collected(&inputs.ordered), Duration::MAX, 0);
    for _ in 0..3 {
        let mut map = start.clone();
        let begun = Instant::now();
        answer = carry_out(act, &mut map, inputs);
        least = least.min(begun.elapsed());
    }
    (least.as_nanos() / inputs.count(act).max(1) as u128, answer)
}

/// Prints a line for each call and size: `name n ns_per_call answer`, of the map and of the `BTreeMap`.
pub fn print_times() -> Result<()> {
    for n in SIZES {
        let inputs = Inputs::new(n);
        for (act, name) in ACTS {
            let (time, answer) = least_time::<IntervalMap<i64, u64>>(act, &inputs);
            println!("map_{name} {n} {time} {answer}");
            let (time, answer) = least_time::<Runs>(act, &inputs);
            println!("btree_{name} {n} {time} {answer}");
        }
    }
    Ok(())
}

/// Prints what the calls answer at a thousand entries, by both maps.
pub fn print_answers() -> Result<()> {
    let inputs = Inputs::new(1_000);
    for (act, name) in ACTS {
        let mut map = IntervalMap::collected(&inputs.ordered);
        println!("map_{name} 1000 {}", carry_out(act, &mut map, &inputs));
        println!("btree_{name} 1000 {}", carry_out(act, &mut Runs::collected(&inputs.ordered), &inputs));
    }
    Ok(())
}
