//! Tests that need files beside the package `intervallum-proved`: recorded answers, and the examples of a page.

#[doc = include_str!("../../../../docs/RUST.md")]
#[cfg(doctest)]
pub mod page {}
