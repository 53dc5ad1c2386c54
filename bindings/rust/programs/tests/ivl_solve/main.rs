// Written by bindings/rust/extract from the tests of crates/ivl_solve.
#![allow(dead_code, unused_imports, unused_macros, unused_variables, clippy::style, clippy::complexity)]

#[macro_use]
#[path = "../host/mod.rs"]
mod host;
mod tests;
