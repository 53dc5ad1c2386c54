//! The operands, the same in each run, from a linear congruential generator.

use crate::expressions::Expressions;
use crate::fault::Result;
use crate::fresh;
use crate::json::JsonInputs;
use intervallum::proved::interval::Interval;
use intervallum::proved::interval_set::{IntervalSet, ToIntervalSet};
use intervallum::proved::ops::{Bounded, Intersection, IsEmpty, Range};
use intervallum::proved::{AllocError, Global};
use intervallum::rattle::boxed::Box;
use intervallum::rattle::vec::Vec;

/// The sets and numbers that the calls are given. What only long calls are given is in boxes, so that little is moved.
pub struct Inputs {
    pub alloc: Global,
    pub dense: Pair,
    pub related: Related,
    pub lists: Box<Lists>,
    pub middle: i64,
    pub wide: Box<Wide>,
    pub forms: Box<Forms>,
    /// Pairs that are merged in turn.
    pub fresh: Vec<Pair>,
}

impl Inputs {
    /// The operands for sets of `n` runs.
    pub fn new(alloc: Global, n: u32) -> Result<Box<Inputs>> {
        let dense = dense_pair(alloc, n, 1)?;
        let span = Span::of(&dense.a)?;
        let lists = Lists::new(alloc, n, span)?;
        let inputs = Inputs {
            alloc,
            middle: span.lower.saturating_add(span.upper) / 2,
            wide: Wide::new(alloc, n)?,
            forms: Forms::new(alloc, &lists.runs, &dense)?,
            related: Related::new(&dense)?,
            fresh: fresh::pairs(alloc, n)?,
            dense,
            lists,
        };
        Ok(Box::new(alloc, inputs)?)
    }
}

/// Two sets that calls are given together.
pub struct Pair {
    pub a: IntervalSet<i64>,
    pub b: IntervalSet<i64>,
}

impl Pair {
    fn new(a: Result<IntervalSet<i64>>, b: Result<IntervalSet<i64>>) -> Result<Pair> {
        Ok(Pair { a: a?, b: b? })
    }
}

/// A copy of the first of two sets, and what both have.
pub struct Related {
    pub clone_of_a: IntervalSet<i64>,
    pub in_both: IntervalSet<i64>,
}

impl Related {
    fn new(pair: &Pair) -> Result<Related, AllocError> {
        Ok(Related { clone_of_a: pair.a.try_clone()?, in_both: pair.a.intersection(&pair.b)? })
    }
}

/// The least and the greatest number of a set.
#[derive(Clone, Copy)]
struct Span {
    lower: i64,
    upper: i64,
}

impl Span {
    fn of(set: &IntervalSet<i64>) -> Result<Span> {
        if set.is_empty() {
            return Err("there are no runs".into());
        }
        Ok(Span { lower: set.lower(), upper: set.upper() })
    }

    /// How many numbers there are from one to five above the greatest.
    fn count_from(self, lower: i64) -> Result<u32> {
        let upper = self.upper.saturating_add(5);
        let count = upper.saturating_sub(lower).saturating_add(1);
        u32::try_from(count).ok().ok_or_else(|| "the probes are too far apart".into())
    }
}

/// What is made of the numbers of the first set.
pub struct Lists {
    /// The bounds of its runs, shuffled.
    pub pairs: Vec<(i64, i64)>,
    /// Its runs, shuffled the same.
    pub runs: Vec<Interval<i64>>,
    pub probes: Vec<i64>,
    /// The values of single edits, as many as it has runs.
    pub edits: Vec<i64>,
}

impl Lists {
    fn new(alloc: Global, n: u32, span: Span) -> Result<Box<Lists>> {
        let mut pairs = dense(alloc, n, 1)?;
        shuffle(&mut pairs, 3);
        let lists = Lists {
            runs: runs_of(alloc, &pairs)?,
            pairs,
            probes: probes(alloc, 1000, 5, span)?,
            edits: probes(alloc, n, 6, span)?,
        };
        Ok(Box::new(alloc, lists)?)
    }
}

/// Sets whose calls take long.
pub struct Wide {
    /// Two sets of `n` runs whose sums and products have many runs.
    pub sparse: Pair,
    /// A set of 10 runs and one of 100,000.
    pub uneven: Pair,
}

impl Wide {
    fn new(alloc: Global, n: u32) -> Result<Box<Wide>> {
        let wide = Wide {
            sparse: Pair::new(apart_set(alloc, n, 1, n), apart_set(alloc, n, 2, 1))?,
            uneven: Pair::new(dense_set(alloc, 10, 2), dense_set(alloc, 100_000, 1))?,
        };
        Ok(Box::new(alloc, wide)?)
    }
}

/// Other forms of the sets.
pub struct Forms {
    pub json: JsonInputs,
    pub expressions: Expressions,
}

impl Forms {
    fn new(alloc: Global, runs: &[Interval<i64>], dense: &Pair) -> Result<Box<Forms>> {
        let forms =
            Forms { json: JsonInputs::new(alloc, runs, &dense.a)?, expressions: Expressions::new(alloc, dense)? };
        Ok(Box::new(alloc, forms)?)
    }
}

/// Two sets of `n` runs with small gaps, by a seed and the next one.
pub fn dense_pair(alloc: Global, n: u32, seed: u64) -> Result<Pair> {
    Pair::new(dense_set(alloc, n, seed), dense_set(alloc, n, seed.saturating_add(1)))
}

/// A set of `n` runs with small gaps, and lists made of its numbers.
pub fn many_runs(alloc: Global, n: u32) -> Result<(IntervalSet<i64>, Box<Lists>)> {
    let set = dense_set(alloc, n, 1)?;
    let lists = Lists::new(alloc, n, Span::of(&set)?)?;
    Ok((set, lists))
}

fn dense_set(alloc: Global, n: u32, seed: u64) -> Result<IntervalSet<i64>> {
    set_of(alloc, &dense(alloc, n, seed)?)
}

fn apart_set(alloc: Global, n: u32, seed: u64, step: u32) -> Result<IntervalSet<i64>> {
    set_of(alloc, &apart(alloc, n, seed, step)?)
}

/// A linear congruential generator.
struct Generator {
    state: u64,
}

impl Generator {
    fn new(seed: u64) -> Generator {
        Generator { state: seed }
    }

    /// The upper bits of the next state.
    fn next(&mut self) -> u32 {
        self.state = self.state.wrapping_mul(6_364_136_223_846_793_005).wrapping_add(1_442_695_040_888_963_407);
        (self.state >> 33) as u32
    }
}

/// Runs with small gaps.
fn dense(alloc: Global, n: u32, seed: u64) -> Result<Vec<(i64, i64)>, AllocError> {
    let mut generator = Generator::new(seed);
    let mut position = i64::from(n) * -4;
    let mut pairs = Vec::new(alloc);
    for _ in 0..n {
        let gap = i64::from(2 + generator.next() % 9);
        let length = i64::from(generator.next() % 8);
        let lower = position.saturating_add(gap);
        position = lower.saturating_add(length);
        pairs.push((lower, position))?;
    }
    Ok(pairs)
}

/// Runs of one or two members, which start at each multiple of `8 * step`. Where the one set has `m`
/// runs at step 1 and the other has step `m`, their sum has a run for each pair of runs.
fn apart(alloc: Global, n: u32, seed: u64, step: u32) -> Result<Vec<(i64, i64)>, AllocError> {
    let mut generator = Generator::new(seed);
    let mut pairs = Vec::new(alloc);
    for i in 0..n {
        let lower = i64::from(i).saturating_mul(i64::from(step)).saturating_mul(8);
        let upper = lower.saturating_add(i64::from(generator.next() % 2));
        pairs.push((lower, upper))?;
    }
    Ok(pairs)
}

fn shuffle(pairs: &mut [(i64, i64)], seed: u64) {
    let mut generator = Generator::new(seed);
    for i in (1..pairs.len()).rev() {
        let j = generator.next() as usize % (i + 1);
        pairs.swap(i, j);
    }
}

/// Numbers from five below the least number to five above the greatest.
fn probes(alloc: Global, times: u32, seed: u64, span: Span) -> Result<Vec<i64>> {
    let lower = span.lower.saturating_sub(5);
    let count = span.count_from(lower)?.max(1);
    let mut generator = Generator::new(seed);
    let mut probes = Vec::new(alloc);
    for _ in 0..times {
        probes.push(lower.saturating_add(i64::from(generator.next() % count)))?;
    }
    Ok(probes)
}

pub fn set_of(alloc: Global, pairs: &[(i64, i64)]) -> Result<IntervalSet<i64>> {
    of_pairs(alloc, pairs)?.ok_or_else(|| "a bound is out of range".into())
}

/// The set of the pairs; none where a bound is out of range.
pub fn of_pairs(alloc: Global, pairs: &[(i64, i64)]) -> Result<Option<IntervalSet<i64>>, AllocError> {
    if !pairs.iter().all(|&(lower, upper)| Interval::in_range(lower, upper)) {
        return Ok(None);
    }
    Ok(Some(pairs.to_interval_set(alloc)?))
}

fn runs_of(alloc: Global, pairs: &[(i64, i64)]) -> Result<Vec<Interval<i64>>> {
    let mut runs = Vec::new(alloc);
    for &(lower, upper) in pairs {
        if !Interval::in_range(lower, upper) {
            return Err("a bound is out of range".into());
        }
        runs.push(Interval::new(lower, upper))?;
    }
    Ok(runs)
}
