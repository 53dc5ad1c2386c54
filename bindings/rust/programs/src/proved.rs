//! The proved source of the programs, body for body, and of the libraries that they alone use.
#![allow(missing_docs)]
// proofs state what holds in a loop by its label
#![allow(unused_labels)]
// what one program does not call, and imports of traits for which Rust does not ask
#![allow(dead_code, unused_imports)]
// the bodies stand as they were proved
#![allow(clippy::style, clippy::complexity)]

pub mod ivl_allocator;
pub mod ivl_blocks;
pub mod ivl_calculator;
pub mod ivl_calculator_lines;
pub mod ivl_calendar;
pub mod ivl_lines;
pub mod ivl_ports;
pub mod ivl_ranges;
pub mod ivl_run;
pub mod ivl_solve;
pub mod ivl_store_lines;

// the library's modules, under the paths that they have there
pub use ::intervallum::proved::{intervallum, ivl_interval, ivl_map, ivl_network, ivl_paged, ivl_rules, ivl_search, ivl_store, ivl_within};

/// What the doc examples of this module have in scope.
#[doc(hidden)]
pub mod examples {
    pub use ::intervallum::rattle::alloc::Global;
    pub use crate::rattle::std::collections::hash_map::RandomState;
    use crate::rattle::runtime::HostRuntime;
    use ::intervallum::rattle::{alloc::AllocError, vec};

    /// What `main` is given.
    #[allow(non_upper_case_globals)]
    pub const rt: HostRuntime = HostRuntime;

    /// The names that examples have of vectors: bytes that are written are those of a vector of Rust.
    pub struct Vec;

    impl Vec {
        pub fn new(_alloc: Global) -> ::std::vec::Vec<u8> {
            ::std::vec::Vec::new()
        }

        pub fn from_array<T, const N: usize>(alloc: Global, items: [T; N]) -> Result<vec::Vec<T>, AllocError> {
            vec::Vec::from_array(alloc, items)
        }
    }
}
