// Written by bindings/rust/extract from crates/ivl_allocator/src/lib.rt.
//! Hands out numbers that stand in a row, one request per line: what the allocators of ports and of blocks have in
//! common. `take 8` takes the eight lowest consecutive free numbers, `take 8 at 40` those from 40 on, `take 8 above 40` the
//! lowest above 40, and `give 8 15` gives numbers back. A program adds the range, and its other commands.

#[allow(unused_imports)]
use crate::rattle::prelude::*;

mod answers;
mod faults;
mod requests;

pub use answers::{all_free, give, take, write_run};
pub use faults::{Fault, write_fault, write_help_of};
pub use requests::is_comment;
