// Written by bindings/rust/extract from crates/ivl_store_lines/src/lib.rt.
//! Narrows the domains of variables by rules between them: reads lines and writes the answer to each.

#[allow(unused_imports)]
use crate::rattle::prelude::*;

mod atomic;
mod different;
mod engine;
mod fault;
mod progress;
mod relation;
mod replies;
mod request;
mod solve;
mod solver;

pub use engine::session;
pub use crate::proved::ivl_lines::SessionFault;
