// Written by bindings/rust/extract from crates/ivl_json/src/numbers.rt.
//! Bounds as JSON numbers.

#[allow(unused_imports)]
use crate::rattle::prelude::*;
use crate::proved::ivl_json::faults::ItemFault;
use crate::proved::intervallum::width::Width;
use serde_json::{Number, Value};

/// The whole number of 64 bits that a value holds, if any.
fn whole_number(value: &Value) -> Option<i128> {
    value.as_number()?.as_i128()
}

/// Reads a bound.
pub(crate) fn bound_from<B: Width>(value: &Value) -> Result<B, ItemFault> {
    let number = whole_number(value).ok_or(ItemFault::Number)?;
    B::from_number(number).ok_or(ItemFault::Range)
}

/// Writes a bound.
pub(crate) fn bound_value<B: Width>(bound: B) -> Value {
    Value::from(Number::from_i128(bound.number()).unwrap())
}
