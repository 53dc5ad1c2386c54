//! JSON values of the sets, and the calls that are measured on them.

pub use intervallum::proved::examples::Value;

use crate::inputs::Inputs;
use crate::measures::Answer;
use intervallum::proved::interval::Interval;
use intervallum::proved::interval_set::IntervalSet;
use intervallum::proved::ivl_json::{JsonFault, JsonForm};
use intervallum::proved::{AllocError, Global};
use intervallum::rattle::vec::Vec;

/// The values that are read and written as text.
pub struct JsonInputs {
    /// The array of the pairs, in the order in which a set is built of them.
    pairs: Value,
    /// What the set is written as.
    written: Value,
}

impl JsonInputs {
    pub fn new(alloc: Global, runs: &[Interval<i64>], set: &IntervalSet<i64>) -> Result<JsonInputs, AllocError> {
        Ok(JsonInputs { pairs: array(alloc, runs)?, written: set.to_value(alloc)? })
    }
}

/// The array of the pairs of bounds.
fn array(alloc: Global, runs: &[Interval<i64>]) -> Result<Value, AllocError> {
    let mut items = Vec::with_capacity(alloc, runs.len())?;
    for run in runs {
        items.push(run.to_value(alloc)?)?;
    }
    Ok(Value::from(items))
}

/// The set that the array of the pairs reads as.
pub fn read(inputs: &Inputs) -> Result<Answer, AllocError> {
    match IntervalSet::from_value(inputs.alloc, &inputs.forms.json.pairs) {
        Ok(set) => Ok(Answer::of_set(&set)),
        Err(JsonFault::Memory) => Err(AllocError),
        Err(_) => Ok(Answer::DoesNotFit),
    }
}

/// The array of the runs of a set.
pub fn written(inputs: &Inputs) -> Result<Value, AllocError> {
    inputs.dense.a.to_value(inputs.alloc)
}

/// The text of that array.
pub fn text(inputs: &Inputs) -> Result<String, AllocError> {
    Ok(inputs.forms.json.written.to_string())
}

/// How long an array is.
pub fn count_of(value: &Value) -> usize {
    match value.as_array() {
        Some(items) => items.len(),
        None => 0,
    }
}
