//! Merges of many pairs of sets in turn, so that no branch predictor has learned them.

use crate::fault::Result;
use crate::inputs::{Inputs, Pair, dense_pair};
use crate::measures::Answer;
use intervallum::proved::interval_set::IntervalSet;
use intervallum::proved::ops::{Cardinality, Difference, Intersection, SymmetricDifference, Union};
use intervallum::proved::{AllocError, Global};
use intervallum::rattle::vec::Vec;
use std::fs;
use std::time::Instant;

/// The pairs that one pass takes in turn: fewer where each is longer.
pub fn pairs(alloc: Global, n: u32) -> Result<Vec<Pair>> {
    let count = (400_000 / n.max(1)).clamp(1, 256);
    let mut pairs = Vec::new(alloc);
    for i in 0..count {
        pairs.push(dense_pair(alloc, n, u64::from(i) * 2 + 1)?)?;
    }
    Ok(pairs)
}

/// The runs and the sizes of what a merge makes of each pair, summed.
fn merged(inputs: &Inputs, merge: fn(&Pair) -> Result<IntervalSet<i64>, AllocError>) -> Result<Answer, AllocError> {
    let mut runs: usize = 0;
    let mut size: u64 = 0;
    for pair in &inputs.fresh {
        let set = merge(pair)?;
        runs = runs.saturating_add(set.interval_count());
        size = size.saturating_add(set.size());
    }
    Ok(Answer::Set(runs, size))
}

pub fn united(inputs: &Inputs) -> Result<Answer, AllocError> {
    merged(inputs, union_of)
}

pub fn common(inputs: &Inputs) -> Result<Answer, AllocError> {
    merged(inputs, intersection_of)
}

pub fn without(inputs: &Inputs) -> Result<Answer, AllocError> {
    merged(inputs, difference_of)
}

pub fn alone(inputs: &Inputs) -> Result<Answer, AllocError> {
    merged(inputs, symmetric_difference_of)
}

fn union_of(pair: &Pair) -> Result<IntervalSet<i64>, AllocError> {
    pair.a.union(&pair.b)
}

fn intersection_of(pair: &Pair) -> Result<IntervalSet<i64>, AllocError> {
    pair.a.intersection(&pair.b)
}

fn difference_of(pair: &Pair) -> Result<IntervalSet<i64>, AllocError> {
    pair.a.difference(&pair.b)
}

fn symmetric_difference_of(pair: &Pair) -> Result<IntervalSet<i64>, AllocError> {
    pair.a.symmetric_difference(&pair.b)
}

/// Prints how long the first union of two sets of a million runs takes, and the peaks of memory in
/// use before and after it.
pub fn print_million() -> Result<()> {
    let pair = dense_pair(Global, 1_000_000, 1)?;
    let before = peak_memory()?;
    let start = Instant::now();
    let answer = Answer::of_set(&union_of(&pair)?);
    let time = start.elapsed().as_nanos();
    println!("union_1m 1000000 {time} {answer}");
    println!("# peak before: {before}, after: {}", peak_memory()?);
    Ok(())
}

/// The most memory that this process has had, as Linux writes it.
fn peak_memory() -> Result<String> {
    let status = fs::read_to_string("/proc/self/status")?;
    let peak = status.lines().find_map(|line| line.strip_prefix("VmHWM:"));
    Ok(peak.map_or("not known", str::trim).to_string())
}
