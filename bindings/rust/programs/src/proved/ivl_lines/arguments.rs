// Written by bindings/rust/extract from crates/ivl_lines/src/arguments.rt.
//! What a program that reads lines is asked for by its arguments.

#[allow(unused_imports)]
use crate::rattle::prelude::*;

/// What the arguments of a program ask for.
#[derive(Clone, Copy, Debug, PartialEq, Eq)]
pub enum Start {
    /// No argument: to answer lines.
    Lines,
    /// `--help`: which lines are understood.
    Help,
    /// `--version`: the version.
    Version,
    /// Anything else, which no program understands.
    Other,
}

/// Returns what a program is asked for, from its first argument and whether there are more. `O(1)`.
/// Does not allocate.
///
/// ```
/// use intervallum_programs::proved::examples::*;
/// use intervallum_programs::proved::ivl_lines::*;
///
/// fn main() -> Result<(), std::boxed::Box<dyn std::error::Error>> {
///     let alloc = Global;
///     assert_eq!(start_of(None, false), Start::Lines);
///     assert_eq!(start_of(Some("--help"), false), Start::Help);
///     assert_eq!(start_of(Some("--help"), true), Start::Other);
///     Ok(())
/// }
/// ```
pub fn start_of(first: Option<&str>, has_more: bool) -> Start {
    match first {
        None => Start::Lines,
        Some("--help") if !has_more => Start::Help,
        Some("--version") if !has_more => Start::Version,
        Some(_) => Start::Other,
    }
}
