//! The calls that are measured, each as a function of the inputs.

use crate::inputs::{Inputs, of_pairs};
use crate::measures::Answer;
use crate::{edits, json};
use intervallum::proved::AllocError;
use intervallum::proved::interval::Interval;
use intervallum::proved::interval_set::IntervalSet;
use intervallum::proved::ops::{
    Complement, Contains, Difference, Fits, Intersection, Range, ShrinkLeft, Subset, SymmetricDifference, Union,
};

/// More numbers than any run has, so that a search for room passes all runs.
const LONGER: u64 = 1000;

fn set(answer: Result<IntervalSet<i64>, AllocError>) -> Result<Answer, AllocError> {
    Ok(Answer::of_set(&answer?))
}

fn truth(answer: bool) -> Result<Answer, AllocError> {
    Ok(Answer::Number(u64::from(answer)))
}

fn fitting(answer: Result<Option<IntervalSet<i64>>, AllocError>) -> Result<Answer, AllocError> {
    match answer? {
        Some(set) => Ok(Answer::of_set(&set)),
        None => Ok(Answer::DoesNotFit),
    }
}

/// An empty set, extended by all runs.
pub fn built(inputs: &Inputs) -> Result<Answer, AllocError> {
    let mut set = IntervalSet::empty(inputs.alloc);
    set.extend(inputs.lists.runs.iter().copied())?;
    Ok(Answer::of_set(&set))
}

pub fn paired(inputs: &Inputs) -> Result<Answer, AllocError> {
    fitting(of_pairs(inputs.alloc, &inputs.lists.pairs))
}

/// A copy, extended by one run.
pub fn extended(inputs: &Inputs) -> Result<Answer, AllocError> {
    let mut copy = inputs.dense.a.try_clone()?;
    let added = [Interval::new(0, 1)];
    copy.extend(added.iter().copied())?;
    Ok(Answer::of_set(&copy))
}

pub fn cloned(inputs: &Inputs) -> Result<Answer, AllocError> {
    set(inputs.dense.a.try_clone())
}

pub fn united(inputs: &Inputs) -> Result<Answer, AllocError> {
    set(inputs.dense.a.union(&inputs.dense.b))
}

pub fn common(inputs: &Inputs) -> Result<Answer, AllocError> {
    set(inputs.dense.a.intersection(&inputs.dense.b))
}

pub fn without(inputs: &Inputs) -> Result<Answer, AllocError> {
    set(inputs.dense.a.difference(&inputs.dense.b))
}

pub fn alone(inputs: &Inputs) -> Result<Answer, AllocError> {
    set(inputs.dense.a.symmetric_difference(&inputs.dense.b))
}

pub fn complement(inputs: &Inputs) -> Result<Answer, AllocError> {
    set(inputs.dense.a.complement())
}

pub fn shrunk(inputs: &Inputs) -> Result<Answer, AllocError> {
    set(inputs.dense.a.shrink_left(inputs.middle))
}

pub fn plus_value(inputs: &Inputs) -> Result<Answer, AllocError> {
    if inputs.dense.a.fits_add(&7) { set(&inputs.dense.a + 7) } else { Ok(Answer::DoesNotFit) }
}

pub fn times_value(inputs: &Inputs) -> Result<Answer, AllocError> {
    if inputs.dense.a.fits_mul(&3) { set(&inputs.dense.a * 3) } else { Ok(Answer::DoesNotFit) }
}

/// How many of the numbers are members.
pub fn hits(inputs: &Inputs) -> Result<Answer, AllocError> {
    let mut hits: u64 = 0;
    for probe in &inputs.lists.probes {
        // counted with no branch: one that is not foreseen costs more than a search among a few runs
        hits = hits.saturating_add(u64::from(inputs.dense.a.contains(probe)));
    }
    Ok(Answer::Number(hits))
}

pub fn is_equal(inputs: &Inputs) -> Result<Answer, AllocError> {
    truth(inputs.dense.a == inputs.related.clone_of_a)
}

/// Whether two sets are equal that are not.
pub fn is_other(inputs: &Inputs) -> Result<Answer, AllocError> {
    truth(inputs.dense.a == inputs.dense.b)
}

pub fn is_subset(inputs: &Inputs) -> Result<Answer, AllocError> {
    truth(inputs.related.in_both.is_subset(&inputs.dense.a))
}

fn sum_of(a: &IntervalSet<i64>, b: &IntervalSet<i64>) -> Result<Answer, AllocError> {
    if a.fits_add(b) { set(a + b) } else { Ok(Answer::DoesNotFit) }
}

pub fn sum(inputs: &Inputs) -> Result<Answer, AllocError> {
    sum_of(&inputs.dense.a, &inputs.dense.b)
}

pub fn difference(inputs: &Inputs) -> Result<Answer, AllocError> {
    if inputs.dense.a.fits_sub(&inputs.dense.b) {
        set(&inputs.dense.a - &inputs.dense.b)
    } else {
        Ok(Answer::DoesNotFit)
    }
}

fn product_of(a: &IntervalSet<i64>, b: &IntervalSet<i64>) -> Result<Answer, AllocError> {
    if a.fits_mul(b) { set(a * b) } else { Ok(Answer::DoesNotFit) }
}

pub fn product(inputs: &Inputs) -> Result<Answer, AllocError> {
    product_of(&inputs.dense.a, &inputs.dense.b)
}

pub fn sparse_sum(inputs: &Inputs) -> Result<Answer, AllocError> {
    sum_of(&inputs.wide.sparse.a, &inputs.wide.sparse.b)
}

pub fn sparse_product(inputs: &Inputs) -> Result<Answer, AllocError> {
    product_of(&inputs.wide.sparse.a, &inputs.wide.sparse.b)
}

/// How long the array is that a set is written as.
pub fn json_write(inputs: &Inputs) -> Result<Answer, AllocError> {
    let value = json::written(inputs)?;
    Ok(Answer::Number(json::count_of(&value) as u64))
}

/// How long the text of that array is.
pub fn json_text(inputs: &Inputs) -> Result<Answer, AllocError> {
    let text = json::text(inputs)?;
    Ok(Answer::Number(text.len() as u64))
}

pub fn eval_sum(inputs: &Inputs) -> Result<Answer, AllocError> {
    fitting(inputs.forms.expressions.sum.eval(inputs.alloc))
}

pub fn eval_chain(inputs: &Inputs) -> Result<Answer, AllocError> {
    fitting(inputs.forms.expressions.chain.eval(inputs.alloc))
}

pub fn united_few(inputs: &Inputs) -> Result<Answer, AllocError> {
    set(inputs.wide.uneven.a.union(&inputs.wide.uneven.b))
}

pub fn common_few(inputs: &Inputs) -> Result<Answer, AllocError> {
    set(inputs.wide.uneven.a.intersection(&inputs.wide.uneven.b))
}

pub fn without_few(inputs: &Inputs) -> Result<Answer, AllocError> {
    set(inputs.wide.uneven.a.difference(&inputs.wide.uneven.b))
}

pub fn is_subset_few(inputs: &Inputs) -> Result<Answer, AllocError> {
    truth(inputs.wide.uneven.a.is_subset(&inputs.wide.uneven.b))
}

pub fn common_value(inputs: &Inputs) -> Result<Answer, AllocError> {
    set(inputs.dense.a.intersection(&inputs.middle))
}

/// How many of the numbers have a member at them or above.
pub fn nexts(inputs: &Inputs) -> Result<Answer, AllocError> {
    let mut nexts: u64 = 0;
    for probe in &inputs.lists.probes {
        if inputs.dense.a.next_from(*probe).is_some() {
            nexts = nexts.saturating_add(1);
        }
    }
    Ok(Answer::Number(nexts))
}

/// Whether so many members are consecutive somewhere.
pub fn has_room(inputs: &Inputs) -> Result<Answer, AllocError> {
    truth(inputs.dense.a.first_fit(LONGER).is_some())
}

pub fn inserted(inputs: &Inputs) -> Result<Answer, AllocError> {
    set(edits::inserted(&inputs.dense.a, &inputs.lists.edits))
}

pub fn removed(inputs: &Inputs) -> Result<Answer, AllocError> {
    set(edits::removed(&inputs.dense.a, &inputs.lists.edits))
}

pub fn popped(inputs: &Inputs) -> Result<Answer, AllocError> {
    Ok(Answer::Number(edits::popped(&inputs.dense.a)?))
}
