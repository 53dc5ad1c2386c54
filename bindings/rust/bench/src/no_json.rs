//! In place of JSON where the library is without it: then no call of JSON is measured.
use crate::inputs::Inputs;
use crate::measures::Answer;
use intervallum::proved::interval::Interval;
use intervallum::proved::interval_set::IntervalSet;
use intervallum::proved::{AllocError, Global};

pub struct Value;

pub struct JsonInputs;

impl JsonInputs {
    pub fn new(_: Global, _: &[Interval<i64>], _: &IntervalSet<i64>) -> Result<JsonInputs, AllocError> {
        Ok(JsonInputs)
    }
}

pub fn read(inputs: &Inputs) -> Result<Answer, AllocError> {
    let JsonInputs = inputs.forms.json;
    Ok(Answer::DoesNotFit)
}

pub fn written(_: &Inputs) -> Result<Value, AllocError> {
    Ok(Value)
}

pub fn text(_: &Inputs) -> Result<String, AllocError> {
    Ok(String::new())
}

pub fn count_of(_: &Value) -> usize {
    0
}
