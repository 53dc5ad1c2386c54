// Written by bindings/rust/extract from crates/ivl_calculator/src/lib.rt.
//! A calculator over registers that hold interval sets.
//!
//! A list of commands gets the answers that it would get over plain sets of numbers. The contract
//! of [`Calc::run`] states this.
//!
//! ```
//! use intervallum_programs::proved::examples::*;
//! use intervallum_programs::proved::ivl_calculator::*;
//!
//! fn main() -> Result<(), std::boxed::Box<dyn std::error::Error>> {
//!     let alloc = Global;
//!     let mut calc = Calc::new(alloc, 2)?;
//!     calc.apply(&Command::Set(0, Vec::from_array(alloc, [ (1, 2), (3, 5)])?));
//!     calc.apply(&Command::Union(1, 0, 1));
//!     let reply = calc.apply(&Command::Size(1));    // Reply::Size(5)
//!     Ok(())
//! }
//! ```

#[allow(unused_imports)]
use crate::rattle::prelude::*;

mod calc;
mod command;

mod reply;

pub use calc::Calc;
pub use command::Command;
pub use reply::{Refusal, Reply};
