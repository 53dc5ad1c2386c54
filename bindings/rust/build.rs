//! Tells the library which calls of std the compiler has.
use std::{env, process::Command};

fn main() {
    println!("cargo::rerun-if-changed=build.rs");
    println!("cargo::rustc-check-cfg=cfg(has_select_unpredictable)");
    // `core::hint::select_unpredictable` is there from 1.88 on; of a compiler that tells no version, none is expected
    if minor_version().is_some_and(|minor| minor >= 88) {
        println!("cargo::rustc-cfg=has_select_unpredictable");
    }
}

/// Returns the 85 of `rustc 1.85.0 (..)`.
fn minor_version() -> Option<u32> {
    let told = Command::new(env::var_os("RUSTC")?).arg("--version").output().ok()?;
    String::from_utf8(told.stdout).ok()?.strip_prefix("rustc 1.")?.split('.').next()?.parse().ok()
}
