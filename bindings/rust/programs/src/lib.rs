//! The programs that read lines, without their contracts: what `bindings/rust/extract` takes out of the proved source, over
//! the library `intervallum` and a small std ([`rattle`]). Each program of `src/bin` calls one `main` of [`proved`].
#![forbid(unsafe_code)]

pub mod keep;
#[macro_use]
pub mod rattle;
pub mod proved;
