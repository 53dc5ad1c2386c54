// Written by bindings/rust/extract from crates/ivl_json/src/json.rt.
//! The trait of types that have a JSON form, and its errors.

#[allow(unused_imports)]
use crate::rattle::prelude::*;
pub use crate::proved::ivl_json::faults::{ItemFault, JsonFault};
pub use crate::proved::ivl_json::form::JsonForm;
