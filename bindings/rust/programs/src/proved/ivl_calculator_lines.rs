// Written by bindings/rust/extract from crates/ivl_calculator_lines/src/lib.rt.
//! A session of the calculator: reads command lines, carries them out over 26 registers that hold sets of whole numbers,
//! and writes one answer line for each.

#[allow(unused_imports)]
use crate::rattle::prelude::*;

mod commands;
mod engine;

mod lines;
mod replies;

pub use engine::session;
pub use crate::proved::ivl_lines::SessionFault;
