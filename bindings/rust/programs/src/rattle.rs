//! The part of Rattle's std, and of three crates of its kit, that the programs use, over Rust's std.
//!
//! Calls that allocate take the allocator and return a `Result`, as those of `intervallum::rattle` do. All of it is safe Rust.

pub mod collections;
pub mod dates;
pub mod indexmap;
#[macro_use]
pub mod runtime;
pub mod string;
pub mod write;

/// The names that each module of the proved code has in scope, before Rust's prelude.
pub mod prelude {
    pub use super::dates::{jiff, jiff_core, jiff_fmt};
    pub use super::runtime::HostRuntime;
    pub use super::string::String;
    pub use super::{indexmap, std};
    pub use ::intervallum::rattle::prelude::*;
    pub use core::fmt::Write as _;
    // `str::from_utf8` is a function of this module where the type has no such one yet
    pub use core::str;
}

/// The paths `std::..` of the proved code.
pub mod std {
    pub use super::collections;
    pub use ::intervallum::rattle::std::*;
    pub use ::std::process;

    pub mod env {
        pub use super::super::runtime::args;
    }

    pub mod io {
        pub use super::super::write::BufWriter;
        pub use ::std::io::{Error, ErrorKind, Read, Result, Write};
    }
}
