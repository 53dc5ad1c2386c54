// Written by bindings/rust/extract from crates/intervallum/src/steps.rt.
//! Walks over the runs of sets from the left, and binary search among them. A contract sees how
//! often a walk has advanced and how often a search has looked at a run.

#[allow(unused_imports)]
use crate::rattle::prelude::*;

mod complement;
mod differences;
mod inclusion;
mod intersection;
mod looks;
mod places;
mod probes;
mod search;
mod sizes;
mod union;
mod walk;

pub(crate) use complement::gaps;
pub(crate) use differences::{one_alone, without};
pub(crate) use inclusion::is_within;
pub use intersection::common;
pub(crate) use intersection::have_common;
pub(crate) use places::{first_from, last_up_to, runs_before, runs_up_to};
pub use probes::Probes;
pub(crate) use search::find_from;
pub use search::{Place, find};
pub(crate) use sizes::common_size;
pub use union::unite;
pub use walk::Walk;
