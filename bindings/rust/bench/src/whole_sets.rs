//! What is made of two whole sets in pages, and of two in lists, at up to a million runs.

use crate::fault::Result;
use crate::inputs::dense_pair;
use crate::measures::Answer;
use intervallum::proved::interval_set::IntervalSet;
use intervallum::proved::ivl_paged::PagedSet;
use intervallum::proved::ops::{Complement, Difference, Intersection, SymmetricDifference, Union};
use intervallum::proved::{AllocError, Global};
use std::time::{Duration, Instant};

const SIZES: [u32; 3] = [1_000, 100_000, 1_000_000];

/// A set that is combined with another one of its kind.
trait Combined: Sized {
    fn union_with(&self, other: &Self) -> Result<Self, AllocError>;

    fn intersection_with(&self, other: &Self) -> Result<Self, AllocError>;

    fn difference_with(&self, other: &Self) -> Result<Self, AllocError>;

    fn symmetric_difference_with(&self, other: &Self) -> Result<Self, AllocError>;

    fn others(&self) -> Result<Self, AllocError>;

    fn answer(&self) -> Answer;
}

impl Combined for PagedSet<i64> {
    fn union_with(&self, other: &Self) -> Result<Self, AllocError> {
        self.union(other)
    }

    fn intersection_with(&self, other: &Self) -> Result<Self, AllocError> {
        self.intersection(other)
    }

    fn difference_with(&self, other: &Self) -> Result<Self, AllocError> {
        self.difference(other)
    }

    fn symmetric_difference_with(&self, other: &Self) -> Result<Self, AllocError> {
        self.symmetric_difference(other)
    }

    fn others(&self) -> Result<Self, AllocError> {
        self.complement()
    }

    fn answer(&self) -> Answer {
        Answer::Set(self.interval_count(), self.size())
    }
}

impl Combined for IntervalSet<i64> {
    fn union_with(&self, other: &Self) -> Result<Self, AllocError> {
        self.union(other)
    }

    fn intersection_with(&self, other: &Self) -> Result<Self, AllocError> {
        self.intersection(other)
    }

    fn difference_with(&self, other: &Self) -> Result<Self, AllocError> {
        self.difference(other)
    }

    fn symmetric_difference_with(&self, other: &Self) -> Result<Self, AllocError> {
        self.symmetric_difference(other)
    }

    fn others(&self) -> Result<Self, AllocError> {
        self.complement()
    }

    fn answer(&self) -> Answer {
        Answer::of_set(self)
    }
}

/// What is made of two sets, or of the first alone.
#[derive(Clone, Copy)]
enum Operation {
    Union,
    Intersection,
    Difference,
    SymmetricDifference,
    Complement,
}

const OPERATIONS: [(Operation, &str); 5] = [
    (Operation::Union, "union"),
    (Operation::Intersection, "intersection"),
    (Operation::Difference, "difference"),
    (Operation::SymmetricDifference, "symmetric_difference"),
    (Operation::Complement, "complement"),
];

fn result_of<S: Combined>(operation: Operation, a: &S, b: &S) -> Result<S, AllocError> {
    match operation {
        Operation::Union => a.union_with(b),
        Operation::Intersection => a.intersection_with(b),
        Operation::Difference => a.difference_with(b),
        Operation::SymmetricDifference => a.symmetric_difference_with(b),
        Operation::Complement => a.others(),
    }
}

/// The least time of some rounds, in nanoseconds for each run that is read, and what is made.
fn least_time<S: Combined>(operation: Operation, a: &S, b: &S, runs: u32) -> Result<(u128, Answer)> {
    let mut least = Duration::MAX;
    let mut answer = Answer::DoesNotFit;
    for _ in 0..7 {
        let start = Instant::now();
        let result = result_of(operation, a, b)?;
        least = least.min(start.elapsed());
        answer = result.answer();
    }
    Ok((least.as_nanos() / u128::from(runs.max(1)), answer))
}

/// Prints a line for each operation and size: `name n ns_per_run answer`, of two sets in pages, and of
/// two in lists.
pub fn print_times() -> Result<()> {
    for &n in &SIZES {
        print_times_at(n)?;
    }
    Ok(())
}

fn print_times_at(n: u32) -> Result<()> {
    let lists = dense_pair(Global, n, 1)?;
    let a = PagedSet::of_set(&lists.a)?;
    let b = PagedSet::of_set(&lists.b)?;
    let runs = n.saturating_mul(2);
    for &(operation, name) in &OPERATIONS {
        let (time, answer) = least_time(operation, &a, &b, runs)?;
        println!("paged_{name} {n} {time} {answer}");
        let (time, answer) = least_time(operation, &lists.a, &lists.b, runs)?;
        println!("list_{name} {n} {time} {answer}");
    }
    Ok(())
}

/// Prints what is made at a thousand runs, of both kinds of set.
pub fn print_answers() -> Result<()> {
    let lists = dense_pair(Global, 1_000, 1)?;
    let a = PagedSet::of_set(&lists.a)?;
    let b = PagedSet::of_set(&lists.b)?;
    for &(operation, name) in &OPERATIONS {
        let answer = result_of(operation, &a, &b)?.answer();
        println!("paged_{name} 1000 {answer}");
        let answer = result_of(operation, &lists.a, &lists.b)?.answer();
        println!("list_{name} 1000 {answer}");
    }
    Ok(())
}
